//! Nanoseconds a step of the machine and of the second interpreter, which do the same work in turn.
use crate::jobs::Job;
use crate::machine;
use reference::{bytes, calls};
use std::hint::black_box;

/// How often each is measured; the median counts.
const REPEATS: usize = 15;

/// What is measured.
#[derive(Clone, Copy, PartialEq)]
pub enum Call {
    /// A whole run: the table is read once, and no state is checked.
    Run,
    /// A step over bytes: table, number 13 and step each time; the reference decodes and encodes the state too.
    Bytes,
    /// A step by value: table, number 13 and step each time.
    Value,
}

pub const CALLS: [(Call, &str); 3] = [(Call::Run, "run"), (Call::Bytes, "step over bytes"), (Call::Value, "step by value")];

/// Nanoseconds a step of both.
#[derive(Clone, Copy)]
pub struct Pace {
    pub machine: f64,
    pub reference: f64,
}

impl Pace {
    pub fn ratio(self) -> f64 {
        self.machine / self.reference
    }
}

#[repr(C)]
struct Timespec {
    seconds: i64,
    nanoseconds: i64,
}

extern "C" {
    fn clock_gettime(clock: i32, time: *mut Timespec) -> i32;
}

/// The processor time of this thread, so that other programs count less.
const THREAD_TIME: i32 = 3;

fn now() -> f64 {
    let mut time = Timespec { seconds: 0, nanoseconds: 0 };
    assert_eq!(unsafe { clock_gettime(THREAD_TIME, &mut time) }, 0);
    time.seconds as f64 * 1e9 + time.nanoseconds as f64
}

/// Nanoseconds a step of some work, and what it made.
pub fn timed<T>(steps: usize, work: impl FnOnce() -> T) -> (f64, T) {
    let from = now();
    let made = black_box(work());
    ((now() - from) / steps as f64, made)
}

/// The answers, and the bytes of the state after the last where the call gives one.
type Made = (Vec<u8>, Vec<u8>);

/// The state after so many steps of a job, as bytes.
fn state_after(job: &Job, steps: usize) -> Vec<u8> {
    let mut answers = vec![0; steps];
    let mut state = vec![0; machine::LENGTH];
    assert_eq!(machine::run(&job.table, &job.order[..steps], &mut answers, &mut state), 0);
    state
}

fn by_machine(call: Call, job: &Job) -> (f64, Made) {
    match call {
        Call::Run => {
            let (mut answers, mut state) = (vec![0; job.order.len()], vec![0; machine::LENGTH]);
            let (ns, number) = timed(job.order.len(), || machine::run(&job.table, &job.order, &mut answers, &mut state));
            assert_eq!(number, 0);
            (ns, (answers, state))
        }
        Call::Bytes => {
            let mut state = state_after(job, job.spawned);
            let steps = job.steps();
            let (ns, answers) =
                timed(steps.len(), || steps.iter().map(|&i| machine::step(&job.table, &mut state, i.into())).collect());
            (ns, (answers, state))
        }
        Call::Value => {
            let order = job.prefix();
            let mut answers = vec![0; order.len()];
            let (ns, number) = timed(order.len(), || machine::single(&job.table, order, &mut answers));
            assert_eq!(number, 0);
            (ns, (answers, Vec::new()))
        }
    }
}

fn by_reference(call: Call, job: &Job) -> (f64, Made) {
    match call {
        Call::Run => {
            let order: Vec<usize> = job.order.iter().map(|&i| i.into()).collect();
            timed(order.len(), || {
                let run = calls::run(&job.table, &order).expect("an accepted table");
                let state = bytes::encode(&run.state);
                (run.answers, state)
            })
        }
        Call::Bytes => {
            let mut state = state_after(job, job.spawned);
            let steps = job.steps();
            let (ns, answers) =
                timed(steps.len(), || steps.iter().map(|&i| bytes::step(&job.table, &mut state, i.into())).collect());
            (ns, (answers, state))
        }
        Call::Value => {
            let order = job.prefix();
            let (ns, answers) = timed(order.len(), || {
                let (_, mut state) = calls::start(&job.table);
                order.iter().map(|&i| calls::step(&job.table, &mut state, i.into())).collect()
            });
            (ns, (answers, Vec::new()))
        }
    }
}

fn median(mut numbers: Vec<f64>) -> f64 {
    numbers.sort_by(f64::total_cmp);
    numbers[numbers.len() / 2]
}

/// Both, in turn. They must make the same.
pub fn in_turn<T: PartialEq>(machine: impl Fn() -> (f64, T), reference: impl Fn() -> (f64, T)) -> Pace {
    let (mut ours, mut theirs) = (Vec::new(), Vec::new());
    for _ in 0..REPEATS {
        let ((ns, made), (other, expected)) = (machine(), reference());
        assert!(made == expected, "both make the same");
        ours.push(ns);
        theirs.push(other);
    }
    Pace { machine: median(ours), reference: median(theirs) }
}

/// Both, by a call on a job: the same answers and the same state.
pub fn pace(call: Call, job: &Job) -> Pace {
    in_turn(|| by_machine(call, job), || by_reference(call, job))
}
