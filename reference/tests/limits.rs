//! Number 17, and the order of 14 to 17.

use reference::bytes::{decode, step};
use reference::calls::{ready_on, step_on};
use reference::fit::is_fit;
use reference::generate::limit_cases;
use reference::rules;
use reference::state::{Hold, Registration, Standing, State};
use reference::table::Table;

#[test]
fn each_cause() {
    for case in limit_cases() {
        let table = Table::read(&case.table).unwrap();
        let state = decode(&case.state).unwrap();
        assert!(is_fit(&table, &state), "{}", case.cause);
        let mut bytes = case.state.clone();
        assert_eq!(
            step(&case.table, &mut bytes, case.activity),
            17,
            "{}",
            case.cause
        );
        assert_eq!(bytes, case.state);
        assert_eq!(ready_on(&table, &state), (0, 1), "{}", case.cause);
    }
}

#[test]
fn just_below_each_limit() {
    for case in limit_cases() {
        let table = Table::read(&case.table).unwrap();
        let mut state = decode(&case.state).unwrap();
        relax(&mut state);
        let answer = step_on(&table, &mut state, case.activity);
        assert!(answer == 0 || answer == 101, "{} {answer}", case.cause);
        assert!(is_fit(&table, &state), "{}", case.cause);
    }
}

/// Takes one away from all that stands at a limit.
fn relax(state: &mut State) {
    if state.activities == 64 {
        state.activities = 63;
        state.acts[63] = Default::default();
    }
    state.clocks = state.clocks.min(15);
    state.accumulators = state.accumulators.min(15);
    state.steps = state.steps.min(1);
    for hold in state.acts.iter_mut().flat_map(|a| &mut a.holds) {
        hold.phase = hold.phase.min(65_534);
    }
}

fn started(table: &[u8], change: impl Fn(&mut State)) -> (Table, State) {
    let table = Table::read(table).unwrap();
    let mut state = rules::start();
    change(&mut state);
    assert!(is_fit(&table, &state));
    (table, state)
}

#[test]
fn a_fault_needs_no_room() {
    // CLOCK 0 on a held name with all 16 clocks made.
    let (table, mut state) = started(&[1, 2, 0, 0], |s| {
        s.clocks = 16;
        s.acts[0].holds[0] = Hold {
            registration: Registration::Live,
            ..Hold::default()
        };
    });
    assert_eq!(step_on(&table, &mut state, 0), 104);
    // ASYNC of a clock not held with all 64 activities spawned.
    let (table, mut state) = started(&[2, 5, 1, 1, 0, 0], |s| {
        s.activities = 64;
        for activity in &mut s.acts[1..] {
            activity.standing = Standing::Ended;
        }
    });
    assert_eq!(step_on(&table, &mut state, 0), 101);
}

#[test]
fn waiting_comes_before_the_limits() {
    // Main waits at a meeting for activity 1, in the last phase and with all steps taken.
    let (table, mut state) = started(&[2, 2, 0, 5, 1, 1, 1, 0, 1, 0], |s| {
        let hold = Hold {
            phase: 65_535,
            clock: 0,
            registration: Registration::Quiesced,
        };
        s.activities = 2;
        s.clocks = 1;
        s.steps = 8;
        s.acts[0].frames[0].offset = 5;
        s.acts[0].standing = Standing::Meeting;
        s.acts[0].holds[0] = hold;
        s.acts[1].depth = 1;
        s.acts[1].frames[0].body = 1;
        s.acts[1].holds[0] = Hold {
            registration: Registration::Live,
            ..hold
        };
    });
    assert_eq!(step_on(&table, &mut state, 0), 16);
    assert_eq!(step_on(&table, &mut state, 1), 17);
    assert_eq!(ready_on(&table, &state), (0, 0b10));
    state.steps = 0;
    assert_eq!(step_on(&table, &mut state, 1), 0);
    assert_eq!(step_on(&table, &mut state, 0), 17);
    assert_eq!(step_on(&table, &mut state, 2), 14);
}

#[test]
fn ended_comes_before_the_limits() {
    let (table, mut state) = started(&[1, 0], |_| ());
    assert_eq!(step_on(&table, &mut state, 0), 0);
    assert_eq!(step_on(&table, &mut state, 0), 15);
    assert_eq!(step_on(&table, &mut state, 1), 14);
    assert_eq!(step_on(&table, &mut state, usize::MAX), 14);
}
