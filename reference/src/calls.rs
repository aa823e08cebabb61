//! The calls with the paper's numbers, each tried in the paper's order.
//!
//! A call on the bytes of a table reads it first. The calls named `.._on` take a table that has
//! been read already, so numbers 1 to 12 cannot apply.

use crate::account::Account;
use crate::answer::{number, Outcome, Refusal};
use crate::fit::is_fit;
use crate::rules::{self, Sheet};
use crate::state::State;
use crate::table::{Table, MAX_ACTIVITIES, MAX_CLOCKS};

const ZERO_SHEET: Sheet = [[0; MAX_CLOCKS]; MAX_ACTIVITIES];

/// The start: numbers 1 to 12. A refused start gives the state of zeros.
pub fn start(table: &[u8]) -> (u8, State) {
    match Table::read(table) {
        Ok(_) => (0, rules::start()),
        Err(refusal) => (refusal.number(), State::default()),
    }
}

/// The step: numbers 1 to 17. A refused step leaves the state as it is.
pub fn step(table: &[u8], state: &mut State, activity: usize) -> u8 {
    number(Table::read(table).and_then(|table| checked_step(&table, state, activity)))
}

/// The ready set: numbers 1 to 13. A refused call gives the empty set.
pub fn ready(table: &[u8], state: &State) -> (u8, u64) {
    match Table::read(table) {
        Ok(table) => ready_on(&table, state),
        Err(refusal) => (refusal.number(), 0),
    }
}

/// How many activities an activity waits for: numbers 1 to 15. A refused call gives 0.
pub fn awaited(table: &[u8], state: &State, activity: usize) -> (u8, u8) {
    match Table::read(table) {
        Ok(table) => awaited_on(&table, state, activity),
        Err(refusal) => (refusal.number(), 0),
    }
}

/// The standing sheet: numbers 1 to 13. A refused call gives a sheet of zeros.
pub fn registrations(table: &[u8], state: &State) -> (u8, Sheet) {
    match Table::read(table) {
        Ok(table) => registrations_on(&table, state),
        Err(refusal) => (refusal.number(), ZERO_SHEET),
    }
}

/// The step on a table already read: numbers 13 to 17.
pub fn step_on(table: &Table, state: &mut State, activity: usize) -> u8 {
    number(checked_step(table, state, activity))
}

/// The ready set on a table already read: number 13.
pub fn ready_on(table: &Table, state: &State) -> (u8, u64) {
    if is_fit(table, state) {
        (0, rules::ready(table, state))
    } else {
        (Refusal::UnfitState.number(), 0)
    }
}

/// How many activities an activity waits for, on a table already read: numbers 13 to 15.
pub fn awaited_on(table: &Table, state: &State, activity: usize) -> (u8, u8) {
    match checked_awaited(table, state, activity) {
        Ok(count) => (0, count),
        Err(refusal) => (refusal.number(), 0),
    }
}

/// The standing sheet on a table already read: number 13.
pub fn registrations_on(table: &Table, state: &State) -> (u8, Sheet) {
    if is_fit(table, state) {
        (0, rules::registrations(state))
    } else {
        (Refusal::UnfitState.number(), ZERO_SHEET)
    }
}

fn checked_step(table: &Table, state: &mut State, activity: usize) -> Result<Outcome, Refusal> {
    if !is_fit(table, state) {
        return Err(Refusal::UnfitState);
    }
    rules::step(table, state, activity)
}

fn checked_awaited(table: &Table, state: &State, activity: usize) -> Result<u8, Refusal> {
    if !is_fit(table, state) {
        return Err(Refusal::UnfitState);
    }
    rules::awaited(table, state, activity)
}

/// What a run gave: the answer of each step and the state after the last.
#[derive(Clone, Debug, PartialEq, Eq)]
pub struct Run {
    pub answers: Vec<u8>,
    pub state: State,
}

/// Runs a table with a list of activity numbers; a refused table gives its number.
pub fn run(table: &[u8], order: &[usize]) -> Result<Run, u8> {
    let table = Table::read(table).map_err(Refusal::number)?;
    let mut answers = Vec::with_capacity(order.len());
    let state = run_on(&table, order, |answer, _| answers.push(answer));
    Ok(Run { answers, state })
}

/// The same run with the account of its work, which looks at what each step would spare.
pub fn accounted(table: &[u8], order: &[usize]) -> Result<(Run, Account), u8> {
    let table = Table::read(table).map_err(Refusal::number)?;
    let mut answers = Vec::with_capacity(order.len());
    let mut account = Account::default();
    let mut state = rules::start();
    for &activity in order {
        let spared = rules::spared(&table, &state, activity);
        let answer = number(rules::step(&table, &mut state, activity));
        account.enter(spared, answer);
        answers.push(answer);
    }
    Ok((Run { answers, state }, account))
}

/// Runs a table already read and shows the answer and the state after each step.
///
/// The states of a run are fit, so they are not checked again for each step.
pub fn run_on(table: &Table, order: &[usize], mut show: impl FnMut(u8, &State)) -> State {
    let mut state = rules::start();
    for &activity in order {
        let answer = number(rules::step(table, &mut state, activity));
        show(answer, &state);
    }
    state
}
