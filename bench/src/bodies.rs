//! Nanoseconds a step of one activity that begins and leaves bodies of a bare END, in one run, beside the second interpreter's.
use crate::jobs::Job;
use crate::measure::{pace, Call, Pace};

/// How often the command stands in the body that is repeated.
const COPIES: usize = 15;

/// The steps of the run.
const STEPS: usize = 7_500;

/// PUT of a hand, and REPEAT 255 of a body of copies of a command, which has body 2, a bare END.
fn job(hand: u8, command: &[u8]) -> Job {
    let mut table = vec![3, 0x0C, hand, 0, 0, 0, 0x07, 255, 1, 0];
    table.extend(command.repeat(if hand == 0 { 2 * COPIES } else { COPIES }));
    table.extend([0, 0]);
    Job { activities: 1, table, order: vec![0; STEPS], spawned: 0 }
}

/// By the command.
pub fn paces() -> [(&'static str, Pace); 4] {
    [
        ("FINISH, and its END", pace(Call::Run, &job(1, &[0x06, 2]))),
        ("REPEAT 1, and its END", pace(Call::Run, &job(1, &[0x07, 1, 2]))),
        ("CHOOSE, and its END", pace(Call::Run, &job(1, &[0x11, 2]))),
        ("CHOOSE that skips its body", pace(Call::Run, &job(0, &[0x11, 2]))),
    ]
}
