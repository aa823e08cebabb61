//! One state in both interpreters: the number, the ready set, the sheet, how many activities wait for, and one step.

use reference::answer::number;
use reference::bytes::{decode, encode};
use reference::fit::is_fit;
use reference::rules;
use reference::state::State;
use reference::table::Table;

use crate::machine;

/// A table as bytes, and as the reference read it, with a name for a difference.
pub struct Job {
    pub name: String,
    pub bytes: Vec<u8>,
    pub table: Table,
}

impl Job {
    /// None where the reference turns the table down.
    pub fn read(name: &str, bytes: &[u8]) -> Option<Job> {
        let table = Table::read(bytes).ok()?;
        Some(Job {
            name: name.to_string(),
            bytes: bytes.to_vec(),
            table,
        })
    }
}

/// Names what differs, and where.
macro_rules! agree {
    ($job:expr, $found:expr, $expected:expr, $($what:tt)+) => {
        if $found != $expected {
            panic!("{}: {}, table {:02X?}", $job.name, format_args!($($what)+), $job.bytes);
        }
    };
}

/// The state that the bytes encode, if it is fit for the job's table.
pub fn fit_state(job: &Job, bytes: &[u8]) -> Option<State> {
    decode(bytes).filter(|state| is_fit(&job.table, state))
}

/// The ready set and the sheet of a state agree, with 13 where there is no fit one.
pub fn views_agree(job: &Job, bytes: &[u8], fit: Option<&State>) {
    let found = machine::ready(&job.bytes, bytes);
    let expected = fit.map_or((13, 0), |state| (0, rules::ready(&job.table, state)));
    agree!(
        job,
        found,
        expected,
        "ready set {found:X?}, not {expected:X?}"
    );
    let (number, sheet) = machine::registrations(&job.bytes, bytes);
    agree!(job, number, expected.0, "sheet's number {number}");
    agree!(job, sheet, fit.map_or([0; 1_024], flat_sheet), "sheet");
}

fn flat_sheet(state: &State) -> [u8; 1_024] {
    let mut flat = [0; 1_024];
    for (to, row) in flat.chunks_exact_mut(16).zip(rules::registrations(state)) {
        to.copy_from_slice(&row);
    }
    flat
}

/// How many each of these activities waits for agrees, and the calls write nothing but the count.
pub fn counts_agree(
    job: &Job,
    bytes: &[u8],
    fit: Option<&State>,
    activities: impl Iterator<Item = usize>,
) {
    let (mut table, mut state) = (job.bytes.clone(), bytes.to_vec());
    for activity in activities {
        let found = machine::awaited(&mut table, &mut state, activity);
        let expected = expected_count(job, fit, activity);
        agree!(
            job,
            found,
            expected,
            "number and count {found:?}, not {expected:?}, of those that {activity} waits for"
        );
    }
    agree!(job, table, job.bytes, "table written by the count");
    agree!(job, state, bytes, "state written by the count");
}

/// The reference's number and count, with 13 where there is no fit state.
fn expected_count(job: &Job, fit: Option<&State>, activity: usize) -> (u8, u8) {
    match fit.map(|state| rules::awaited(&job.table, state, activity)) {
        None => (13, 0),
        Some(Ok(count)) => (0, count),
        Some(Err(refusal)) => (refusal.number(), 0),
    }
}

/// A step of a fit state agrees, in its answer and in every byte after it.
pub fn step_agrees(job: &Job, bytes: &mut [u8], state: &mut State, activity: usize) -> u8 {
    let taken = state.steps;
    let expected = number(rules::step(&job.table, state, activity));
    let found = machine::step(&job.bytes, bytes, activity);
    agree!(
        job,
        found,
        expected,
        "answer {found}, not {expected}, of {activity} after {taken} steps"
    );
    agree!(
        job,
        *bytes,
        encode(state)[..],
        "state after {activity} after {taken} steps"
    );
    found
}

/// A state of any kind agrees: the views, and for each of these activities how many it waits for, and a step.
pub fn state_agrees(
    job: &Job,
    bytes: &[u8],
    activities: impl Iterator<Item = usize> + Clone,
) -> Vec<u8> {
    let fit = fit_state(job, bytes);
    views_agree(job, bytes, fit.as_ref());
    counts_agree(job, bytes, fit.as_ref(), activities.clone());
    let step = |activity| match &fit {
        Some(state) => step_agrees(job, &mut bytes.to_vec(), &mut state.clone(), activity),
        None => refusal_agrees(job, bytes, activity),
    };
    activities.map(step).collect()
}

/// A step of a state that is not fit gives 13 and alters nothing.
fn refusal_agrees(job: &Job, bytes: &[u8], activity: usize) -> u8 {
    let mut after = bytes.to_vec();
    let found = machine::step(&job.bytes, &mut after, activity);
    agree!(job, found, 13, "answer {found}, not 13, of {activity}");
    agree!(job, after, bytes, "unfit state altered by {activity}");
    found
}
