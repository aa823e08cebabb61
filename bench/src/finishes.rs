//! Nanoseconds a turn of an owner that waits at the END of its FINISH body with sixty-three inside, in one run, beside the second interpreter's.
use crate::jobs::Job;
use crate::measure::{pace, Call, Pace};

/// PUT 0; and RESUME of a clock that nobody holds, fault F1.
const PUT: [u8; 5] = [0x0C, 0, 0, 0, 0];
const BREACH: [u8; 2] = [0x03, 0];

/// The turns at the END.
const TURNS: usize = 20_000;

/// Main spawns sixty-three inside its finish, each before this command; the first so many take so many steps each; then main's turns.
fn job(command: &[u8], over: u8, steps: usize) -> Job {
    let mut table = vec![4, 0x06, 1, 0, 0x07, 63, 2, 0, 0x05, 3, 0, 0];
    table.extend(command);
    table.push(0);
    let mut order = vec![0; 2 + 2 * 63];
    for i in 1..=over {
        order.extend(vec![i; steps]);
    }
    order.extend([0; TURNS]);
    Job { activities: 64, table, order, spawned: 0 }
}

/// By how those inside stand.
pub fn paces() -> [(&'static str, Pace); 3] {
    [
        ("nobody inside has ended", pace(Call::Run, &job(&PUT, 0, 0))),
        ("62 inside have ended", pace(Call::Run, &job(&PUT, 62, 2))),
        ("62 inside have faulted", pace(Call::Run, &job(&BREACH, 62, 1))),
    ]
}
