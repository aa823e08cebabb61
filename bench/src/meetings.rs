//! Nanoseconds a call of the ready set of sixty-four activities, most of them at a meeting, beside the second interpreter's.
use crate::lent;
use crate::machine;
use crate::measure::Pace;
use reference::bytes;

/// Who has not arrived.
const LAST: [u8; 1] = [63];
const MAIN: [u8; 1] = [0];
const NOBODY: [u8; 0] = [];

/// A table whose main makes so many clocks, spawns so many activities that END, others on all clocks up to sixty-four, and meets them.
fn table(clocks: u8, ending: u8) -> Vec<u8> {
    let mut table = vec![4];
    for clock in 0..clocks {
        table.extend([0x02, clock]);
    }
    table.extend([0x07, ending, 1, 0x07, 63 - ending, 2, 0x01, 0]);
    let mask = u8::MAX >> (8 - clocks);
    table.extend([0x05, 3, 0, 0, 0x05, 3, mask, 0]);
    table.extend([0x01, 0]);
    table
}

/// The state in which those who end have ended and all others but these have arrived.
fn state(table: &[u8], clocks: u8, ending: u8, absent: &[u8]) -> Vec<u8> {
    let spawning = usize::from(clocks) + 2 + 2 * 63;
    let mut order = vec![0; spawning];
    for i in 1..=ending {
        order.extend([i; 3]);
    }
    order.extend((0..64).filter(|i| (*i == 0 || *i > ending) && !absent.contains(i)));
    let mut answers = vec![0; order.len()];
    let mut state = vec![0; machine::LENGTH];
    assert_eq!(machine::run(table, &order, &mut answers, &mut state), 0);
    assert!(answers.iter().all(|&answer| answer == 0));
    state
}

/// The ready set of such a state.
fn pace(clocks: u8, ending: u8, absent: &[u8]) -> Pace {
    let table = table(clocks, ending);
    let state = state(&table, clocks, ending, absent);
    lent::pace(
        &[0],
        0,
        |set| machine::ready(&table, &state, &mut set[0]),
        |set| {
            let (number, found) = bytes::ready(&table, &state);
            set[0] = found;
            number
        },
    )
}

/// By who is behind, with one clock and with eight; and with fifty-six that have ended.
pub fn paces() -> [(&'static str, Pace); 6] {
    [
        ("1 clock, activity 63 is behind", pace(1, 0, &LAST)),
        ("1 clock, main is behind", pace(1, 0, &MAIN)),
        ("1 clock, nobody is behind", pace(1, 0, &NOBODY)),
        ("8 clocks, activity 63 is behind", pace(8, 0, &LAST)),
        ("8 clocks, nobody is behind", pace(8, 0, &NOBODY)),
        ("1 clock, 56 have ended, nobody is behind", pace(1, 56, &NOBODY)),
    ]
}
