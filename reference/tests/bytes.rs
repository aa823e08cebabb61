//! The state as bytes.

use reference::bytes::{awaited, decode, encode, ready, registrations, start, step, LENGTH};
use reference::calls::run;
use reference::state::State;
use reference::{calls, rules};

/// Main makes a clock and a minimum, spawns on the clock, enters a REPEAT in a FINISH; 2 faults.
const TABLE: [u8; 25] = [
    4, 2, 1, 8, 3, 1, 5, 3, 2, 5, 3, 0, 12, 4, 3, 2, 1, 6, 1, 0, // body 0
    7, 9, 2, 0, // body 1
    0, // body 2
];

fn table() -> Vec<u8> {
    [&TABLE[..], &[1, 4, 0, 0]].concat()
}

fn state() -> State {
    let order = [0, 0, 0, 0, 0, 0, 0, 2, 2, 2, 1];
    let run = run(&table(), &order).unwrap();
    assert_eq!(run.answers, [0, 0, 0, 0, 0, 0, 0, 0, 0, 101, 0]);
    run.state
}

#[test]
fn each_field_has_its_place() {
    let bytes = encode(&state());
    assert_eq!(bytes.len(), LENGTH);
    assert_eq!(bytes[..8], [1, 3, 1, 1, 11, 0, 0, 0]);
    assert_eq!(bytes[80..86], [255, 255, 255, 255, 0, 1]);
    let main = &bytes[464..672];
    assert_eq!(main[..8], [4, 3, 2, 1, 0, 0, 0, 3]);
    assert_eq!(main[8..16], [0, 0, 0, 1, 0, 0, 0, 0]);
    assert_eq!(
        main[16..32],
        [0, 0, 0, 0, 0, 0, 0, 0, 0, 0, 0, 0, 0, 1, 0, 0]
    );
    assert_eq!(main[80..88], [16, 0, 0, 0, 0, 0, 0, 0]);
    assert_eq!(main[88..96], [0, 0, 1, 0, 3, 0, 0, 0]);
    assert_eq!(main[96..104], [0, 0, 2, 9, 0, 0, 0, 0]);
    let meeting = &bytes[672..880];
    assert_eq!(meeting[4..8], [1, 0, 0, 1]);
    assert_eq!(meeting[24..32], [0, 0, 0, 0, 0, 2, 0, 0]);
    assert_eq!(meeting[80..88], [0, 0, 3, 0, 0, 0, 0, 0]);
    let faulted = &bytes[880..1088];
    assert_eq!(
        faulted[..16],
        [0, 0, 0, 0, 3, 1, 0, 0, 0, 0, 0, 1, 0, 0, 0, 0]
    );
    assert!(faulted[16..].iter().all(|&byte| byte == 0));
    assert!(bytes[1088..].iter().all(|&byte| byte == 0));
}

#[test]
fn decoding_undoes_encoding() {
    for state in [state(), rules::start(), State::default()] {
        assert_eq!(decode(&encode(&state)), Some(state));
    }
}

#[test]
fn the_state_of_zeros_has_the_version() {
    let mut bytes = encode(&State::default());
    assert_eq!(bytes[0], 1);
    bytes[0] = 0;
    assert_eq!(bytes, vec![0; LENGTH]);
    assert_eq!(decode(&bytes), None);
}

/// Each of these encodes no state, and calls answer 13.
#[test]
fn bytes_that_encode_no_state() {
    let activity = 464;
    let changes: [(usize, u8); 19] = [
        (0, 0),
        (0, 2),
        (6, 1), // steps 65,536 and more
        (8, 1), // reserved
        (15, 1),
        (80 + 5, 3), // operator
        (80 + 6, 1), // reserved
        (80 + 24 * 15 + 23, 1),
        (activity + 4, 4), // standing
        (activity + 4, 3), // faulted without a fault
        (activity + 5, 1), // a fault without faulting
        (activity + 416 + 5, 0),
        (activity + 416 + 5, 9),
        (activity + 16 + 13, 3), // registration
        (activity + 16 + 10, 1), // phase 65,536
        (activity + 16 + 14, 1), // reserved
        (activity + 80 + 5, 1),  // reserved
        (activity + 208 * 63 + 207, 1),
        (activity + 208 * 63 + 4, 255),
    ];
    for (at, byte) in changes {
        let mut bytes = encode(&state());
        bytes[at] = byte;
        check_no_state(bytes);
    }
    let bytes = encode(&state());
    check_no_state(vec![]);
    check_no_state(bytes[..LENGTH - 1].to_vec());
    check_no_state([&bytes[..], &[0]].concat());
}

fn check_no_state(mut bytes: Vec<u8>) {
    assert_eq!(decode(&bytes), None);
    let before = bytes.clone();
    assert_eq!(step(&table(), &mut bytes, 0), 13);
    assert_eq!(bytes, before);
    assert_eq!(ready(&table(), &bytes), (13, 0));
    assert_eq!(awaited(&table(), &bytes, 0), (13, 0));
    assert_eq!(registrations(&table(), &bytes), (13, [[0; 16]; 64]));
    // The table is looked at first.
    assert_eq!(step(&[1, 1], &mut bytes, 0), 4);
    assert_eq!(ready(&[0, 0], &bytes), (2, 0));
    assert_eq!(awaited(&[0, 0], &bytes, 64), (2, 0));
}

#[test]
fn calls_over_bytes_are_the_calls() {
    let table = table();
    let (number, mut bytes) = start(&table);
    let mut state = calls::start(&table).1;
    assert_eq!((number, &bytes), (0, &encode(&state)));
    for turn in 0..200 {
        let activity = turn * 7 % 5;
        let answer = step(&table, &mut bytes, activity);
        assert_eq!(answer, calls::step(&table, &mut state, activity));
        assert_eq!(bytes, encode(&state));
        assert_eq!(ready(&table, &bytes), calls::ready(&table, &state));
        for activity in 0..65 {
            let expected = calls::awaited(&table, &state, activity);
            assert_eq!(awaited(&table, &bytes, activity), expected);
        }
        assert_eq!(
            registrations(&table, &bytes),
            calls::registrations(&table, &state)
        );
    }
    assert!(state.is_finished());
}

#[test]
fn a_refused_start_gives_the_state_of_zeros() {
    assert_eq!(start(&[1, 1]), (4, encode(&State::default())));
}
