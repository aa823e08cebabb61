//! Number 13: which states are fit for a table, clause by clause.

use crate::state::{Accumulator, Activity, Frame, Hold, Standing, State, MAX_DEPTH, MAX_PHASE};
use crate::table::{Command, Table, MAX_ACCUMULATORS, MAX_ACTIVITIES, MAX_CLOCKS};

/// A clause of number 13: true where the state breaks it.
pub type Clause = fn(&Table, &State) -> bool;

/// The clauses with the paper's words.
pub const CLAUSES: [(&str, Clause); 13] = [
    ("a count or phase is over its limit", over_limit),
    ("steps taken exceed the work", steps_exceed_work),
    ("a repeat has 0 runs left or more than its n", wrong_runs),
    ("a place is no command of its body", no_command),
    ("an unended activity has no body", unended_without_body),
    ("an ended one has a body or a clock", ended_with_something),
    (
        "a stacked body is not the one run by the body below it",
        not_the_one_run,
    ),
    (
        "one activity has two names for one clock",
        two_names_for_one_clock,
    ),
    (
        "a standing at a meeting is not on NEXT",
        meeting_not_on_next,
    ),
    ("stacked bodies do not rise", bodies_do_not_rise),
    ("a spawner is not lower than its child", spawner_not_lower),
    ("an unmade thing is named", unmade_thing_named),
    ("an unused entry is not 0", unused_entry_not_zero),
];

/// Whether the state breaks no clause.
pub fn is_fit(table: &Table, state: &State) -> bool {
    CLAUSES.iter().all(|(_, broken)| !broken(table, state))
}

/// The words of each clause that the state breaks.
pub fn broken_clauses(table: &Table, state: &State) -> Vec<&'static str> {
    CLAUSES
        .iter()
        .filter(|(_, broken)| broken(table, state))
        .map(|(words, _)| *words)
        .collect()
}

/// "a count or phase is over its limit (phases 65,535)"
fn over_limit(_: &Table, state: &State) -> bool {
    usize::from(state.activities) > MAX_ACTIVITIES
        || usize::from(state.clocks) > MAX_CLOCKS
        || usize::from(state.accumulators) > MAX_ACCUMULATORS
        || state.acts.iter().any(activity_over_limit)
}

fn activity_over_limit(activity: &Activity) -> bool {
    usize::from(activity.depth) > MAX_DEPTH || activity.holds.iter().any(|h| h.phase > MAX_PHASE)
}

/// "steps taken exceed the work"
fn steps_exceed_work(table: &Table, state: &State) -> bool {
    state.steps > table.work()
}

/// "a repeat has 0 runs left or more than its n (the run under way counts as left)"
fn wrong_runs(table: &Table, state: &State) -> bool {
    any_stacked(state, |below, frame| {
        matches!(command(table, below), Some(&Command::Repeat { runs, .. })
            if frame.runs == 0 || frame.runs > runs)
    })
}

/// "a place is no command of its body (the k commands belong to their ATOM)"
fn no_command(table: &Table, state: &State) -> bool {
    any_frame(state, |frame| command(table, frame).is_none())
}

/// "an unended activity has no body"
fn unended_without_body(_: &Table, state: &State) -> bool {
    state
        .spawned()
        .iter()
        .any(|a| !a.has_ended() && a.depth == 0)
}

/// "an ended one has a body or a clock"
fn ended_with_something(_: &Table, state: &State) -> bool {
    state
        .spawned()
        .iter()
        .any(|a| a.has_ended() && (a.depth != 0 || a.held().next().is_some()))
}

/// "a stacked body is not the one run by the FINISH or REPEAT of the body below it"; nor by its
/// CHOOSE.
fn not_the_one_run(table: &Table, state: &State) -> bool {
    any_stacked(state, |below, frame| match command(table, below) {
        Some(
            &Command::Finish { body } | &Command::Repeat { body, .. } | &Command::Choose { body },
        ) => frame.body != body,
        _ => true,
    })
}

/// "one activity has two names for one clock"
fn two_names_for_one_clock(_: &Table, state: &State) -> bool {
    state.spawned().iter().any(|activity| {
        let clocks: Vec<u8> = activity.held().map(|hold| hold.clock).collect();
        (1..clocks.len()).any(|k| clocks[..k].contains(&clocks[k]))
    })
}

/// "a standing at a meeting is not on NEXT"
fn meeting_not_on_next(table: &Table, state: &State) -> bool {
    state.spawned().iter().any(|activity| {
        let on = activity.top().and_then(|frame| command(table, frame));
        activity.standing == Standing::Meeting && on != Some(&Command::Next)
    })
}

/// "stacked bodies do not rise"
fn bodies_do_not_rise(_: &Table, state: &State) -> bool {
    any_stacked(state, |below, frame| frame.body <= below.body)
}

/// "a spawner is not lower than its child"; main has no spawner.
fn spawner_not_lower(_: &Table, state: &State) -> bool {
    let children = state.spawned().iter().enumerate().skip(1);
    children
        .into_iter()
        .any(|(number, child)| usize::from(child.spawner) >= number)
}

/// "an unmade thing is named": a body, clock, accumulator or activity.
fn unmade_thing_named(table: &Table, state: &State) -> bool {
    unmade_body(table, state)
        || unmade_clock(state)
        || unmade_accumulator(state)
        || unmade_activity(table, state)
}

fn unmade_body(table: &Table, state: &State) -> bool {
    any_frame(state, |frame| usize::from(frame.body) >= table.bodies())
}

fn unmade_clock(state: &State) -> bool {
    let mut held = state.spawned().iter().flat_map(Activity::held);
    held.any(|hold| hold.clock >= state.clocks)
}

fn unmade_accumulator(state: &State) -> bool {
    let mut names = state.spawned().iter().flat_map(|a| a.accumulators);
    names.any(|name| name > state.accumulators)
}

/// A spawner, an owner, or one before the first activity of a FINISH.
fn unmade_activity(table: &Table, state: &State) -> bool {
    let spawner = state
        .spawned()
        .iter()
        .any(|a| a.spawner >= state.activities);
    let owner = made_accumulators(state)
        .iter()
        .any(|acc| acc.owner >= state.activities);
    let first = any_stacked(state, |below, frame| {
        is_finish(table, below) && frame.first > state.activities
    });
    spawner || owner || first
}

/// "an unused entry is not 0"
fn unused_entry_not_zero(table: &Table, state: &State) -> bool {
    unspawned_activity_used(state)
        || unmade_accumulator_used(state)
        || state.spawned().iter().any(free_name_used)
        || state.spawned().iter().any(frame_past_depth_used)
        || main_has_spawner(state)
        || state.spawned().iter().any(|a| frame_fields_used(table, a))
}

fn unspawned_activity_used(state: &State) -> bool {
    let unused = &state.acts[state.spawned().len()..];
    unused.iter().any(|a| *a != Activity::default())
}

fn unmade_accumulator_used(state: &State) -> bool {
    let unused = &state.accs[made_accumulators(state).len()..];
    unused.iter().any(|acc| *acc != Accumulator::default())
}

fn free_name_used(activity: &Activity) -> bool {
    let mut free = activity.holds.iter().filter(|hold| !hold.is_held());
    free.any(|hold| *hold != Hold::default())
}

fn frame_past_depth_used(activity: &Activity) -> bool {
    let unused = &activity.frames[activity.stack().len()..];
    unused.iter().any(|frame| *frame != Frame::default())
}

fn main_has_spawner(state: &State) -> bool {
    state.acts[0].spawner != 0
}

/// The runs of a body that no REPEAT runs, or the first of one that no FINISH runs.
fn frame_fields_used(table: &Table, activity: &Activity) -> bool {
    let lowest = activity.stack().first();
    lowest.is_some_and(|frame| frame.runs != 0 || frame.first != 0)
        || activity.stack().windows(2).any(|pair| {
            (!is_repeat(table, &pair[0]) && pair[1].runs != 0)
                || (!is_finish(table, &pair[0]) && pair[1].first != 0)
        })
}

fn made_accumulators(state: &State) -> &[Accumulator] {
    &state.accs[..usize::from(state.accumulators).min(MAX_ACCUMULATORS)]
}

/// The command that a body stands on.
fn command<'t>(table: &'t Table, frame: &Frame) -> Option<&'t Command> {
    table
        .place(frame.body, frame.offset)
        .map(|place| &place.command)
}

fn is_finish(table: &Table, frame: &Frame) -> bool {
    matches!(command(table, frame), Some(Command::Finish { .. }))
}

fn is_repeat(table: &Table, frame: &Frame) -> bool {
    matches!(command(table, frame), Some(Command::Repeat { .. }))
}

/// Whether some body on a stack satisfies the test.
fn any_frame(state: &State, test: impl Fn(&Frame) -> bool) -> bool {
    state.spawned().iter().flat_map(Activity::stack).any(test)
}

/// Whether some body and the one below it satisfy the test, which is handed the lower one first.
fn any_stacked(state: &State, test: impl Fn(&Frame, &Frame) -> bool) -> bool {
    let mut pairs = state.spawned().iter().flat_map(|a| a.stack().windows(2));
    pairs.any(|pair| test(&pair[0], &pair[1]))
}
