//! Number 13: states that break one clause each, and unreachable states that are fit.

use reference::bytes;
use reference::calls::{ready_on, registrations_on, run, step_on};
use reference::fit::{broken_clauses, is_fit};
use reference::state::{Frame, Hold, Registration, Standing, State};
use reference::table::{Operator, Table};
use reference::Fault;

/// Body 0: CLOCK 0, ACC 0 0, ASYNC 1 01, ASYNC 4 00, FINISH 2, END.
/// Body 1: NEXT, ATOM of FETCH 0 and ADD 1, END. Body 2: REPEAT 3 of body 3, END.
/// Body 3: NEXT, END. Body 4: END.
const TABLE: [u8; 29] = [
    5, 2, 0, 8, 0, 0, 5, 1, 1, 5, 4, 0, 6, 2, 0, // body 0
    1, 16, 2, 13, 0, 15, 1, 0, // body 1
    7, 3, 3, 0, // body 2
    1, 0, // body 3
];

fn bytes_of_table() -> Vec<u8> {
    [&TABLE[..], &[0]].concat()
}

fn table() -> Table {
    Table::read(&bytes_of_table()).unwrap()
}

/// Main is in a REPEAT inside a FINISH, activity 1 at a meeting, activity 2 has ended.
fn state() -> State {
    let run = run(&bytes_of_table(), &[0, 0, 0, 0, 2, 0, 0, 1]).unwrap();
    assert!(run.answers.iter().all(|&answer| answer == 0));
    run.state
}

const OVER_LIMIT: &str = "a count or phase is over its limit";
const STEPS: &str = "steps taken exceed the work";
const RUNS: &str = "a repeat has 0 runs left or more than its n";
const PLACE: &str = "a place is no command of its body";
const NO_BODY: &str = "an unended activity has no body";
const ENDED: &str = "an ended one has a body or a clock";
const NOT_RUN: &str = "a stacked body is not the one run by the body below it";
const TWO_NAMES: &str = "one activity has two names for one clock";
const MEETING: &str = "a standing at a meeting is not on NEXT";
const RISE: &str = "stacked bodies do not rise";
const SPAWNER: &str = "a spawner is not lower than its child";
const UNMADE: &str = "an unmade thing is named";
const UNUSED: &str = "an unused entry is not 0";

/// The change breaks exactly these clauses, and each call answers 13.
fn breaks(clauses: &[&str], change: impl Fn(&mut State)) {
    let table = table();
    let mut state = state();
    change(&mut state);
    assert_eq!(broken_clauses(&table, &state), clauses);
    check_refused(&table, &state);
}

fn check_refused(table: &Table, state: &State) {
    for activity in [0, 1, 63, 64, usize::MAX] {
        let mut after = state.clone();
        assert_eq!(step_on(table, &mut after, activity), 13);
        assert_eq!(after, *state);
        let encoded = bytes::encode(state);
        let mut after = encoded.clone();
        assert_eq!(bytes::step(&bytes_of_table(), &mut after, activity), 13);
        assert_eq!(after, encoded);
    }
    assert_eq!(ready_on(table, state), (13, 0));
    assert_eq!(registrations_on(table, state), (13, [[0; 16]; 64]));
}

/// The change leaves the state fit.
fn stays_fit(change: impl Fn(&mut State)) {
    let mut state = state();
    change(&mut state);
    assert_eq!(broken_clauses(&table(), &state), [""; 0]);
}

fn live(clock: u8) -> Hold {
    Hold {
        phase: 0,
        clock,
        registration: Registration::Live,
    }
}

#[test]
fn the_state_itself_is_fit() {
    let (table, state) = (table(), state());
    assert!(is_fit(&table, &state));
    assert_eq!(table.work(), 22);
    assert_eq!(state.acts[0].depth, 3);
    assert_eq!(state.acts[1].standing, Standing::Meeting);
    assert_eq!(state.acts[2].standing, Standing::Ended);
}

#[test]
fn counts_and_phases() {
    breaks(&[OVER_LIMIT], |s| s.clocks = 17);
    breaks(&[OVER_LIMIT], |s| s.accumulators = 17);
    breaks(&[OVER_LIMIT], |s| s.acts[0].holds[0].phase = 65_536);
    breaks(&[OVER_LIMIT], |s| {
        s.activities = 65;
        for activity in &mut s.acts[3..] {
            activity.standing = Standing::Ended;
        }
    });
    // A depth of 17 also reaches frames that nothing runs.
    breaks(&[OVER_LIMIT, NOT_RUN, RISE], |s| s.acts[0].depth = 17);
    stays_fit(|s| s.acts[0].holds[0].phase = 65_535);
    stays_fit(|s| s.clocks = 16);
    stays_fit(|s| s.accumulators = 16);
}

#[test]
fn steps() {
    breaks(&[STEPS], |s| s.steps = 23);
    breaks(&[STEPS], |s| s.steps = u32::MAX);
    stays_fit(|s| s.steps = 22);
    stays_fit(|s| s.steps = 0);
}

#[test]
fn runs_left() {
    breaks(&[RUNS], |s| s.acts[0].frames[2].runs = 0);
    breaks(&[RUNS], |s| s.acts[0].frames[2].runs = 4);
    stays_fit(|s| s.acts[0].frames[2].runs = 1);
}

#[test]
fn places() {
    breaks(&[PLACE], |s| s.acts[0].frames[2].offset = 2);
    breaks(&[PLACE], |s| s.acts[0].frames[2].offset = 65_535);
    // Inside the ATOM of body 1.
    for offset in [2, 3, 4, 5, 6] {
        breaks(&[PLACE], |s| {
            s.acts[1].standing = Standing::Running;
            s.acts[1].frames[0].offset = offset;
        });
    }
    for offset in [0, 1, 7] {
        stays_fit(|s| {
            s.acts[1].standing = Standing::Running;
            s.acts[1].frames[0].offset = offset;
        });
    }
}

#[test]
fn unended_without_body() {
    breaks(&[NO_BODY], |s| s.acts[2].standing = Standing::Running);
    breaks(&[NO_BODY, MEETING], |s| {
        s.acts[2].standing = Standing::Meeting;
    });
}

#[test]
fn ended_with_body_or_clock() {
    for standing in [Standing::Ended, Standing::Faulted(Fault::NotOwner)] {
        breaks(&[ENDED], |s| {
            s.acts[2].standing = standing;
            s.acts[2].depth = 1;
            s.acts[2].frames[0].body = 4;
        });
        breaks(&[ENDED], |s| {
            s.acts[2].standing = standing;
            s.acts[2].holds[0] = live(0);
        });
        stays_fit(|s| s.acts[2].standing = standing);
    }
}

#[test]
fn stacked_bodies() {
    breaks(&[NOT_RUN], |s| s.acts[0].frames[2].body = 4);
    // Below stands CLOCK, which runs nothing.
    breaks(&[NOT_RUN], |s| {
        s.acts[0].frames[0].offset = 0;
        s.acts[0].frames[1].first = 0;
    });
    // Bodies that do not rise are never those that a table's FINISH or REPEAT runs.
    breaks(&[NOT_RUN, RISE], |s| s.acts[0].frames[2].body = 2);
}

#[test]
fn two_names_for_one_clock() {
    breaks(&[TWO_NAMES], |s| s.acts[0].holds[5] = s.acts[0].holds[0]);
    breaks(&[TWO_NAMES], |s| {
        s.acts[0].holds[7] = Hold {
            phase: 9,
            registration: Registration::Quiesced,
            ..live(0)
        }
    });
}

#[test]
fn meetings() {
    breaks(&[MEETING], |s| s.acts[1].frames[0].offset = 1);
    breaks(&[MEETING], |s| {
        s.acts[0].frames[2].offset = 1;
        s.acts[0].standing = Standing::Meeting;
    });
    stays_fit(|s| s.acts[0].standing = Standing::Meeting);
    stays_fit(|s| s.acts[1].standing = Standing::Running);
    stays_fit(|s| s.acts[1].holds[0].registration = Registration::Live);
}

#[test]
fn spawners() {
    breaks(&[SPAWNER], |s| s.acts[1].spawner = 1);
    breaks(&[SPAWNER], |s| s.acts[1].spawner = 2);
    breaks(&[SPAWNER, UNMADE], |s| s.acts[1].spawner = 3);
    stays_fit(|s| s.acts[2].spawner = 1);
}

#[test]
fn unmade_things() {
    breaks(&[UNMADE], |s| s.acts[0].holds[0].clock = 1);
    breaks(&[UNMADE], |s| s.acts[0].accumulators[3] = 2);
    breaks(&[UNMADE], |s| s.acts[2].accumulators[3] = 255);
    breaks(&[UNMADE], |s| s.accs[0].owner = 3);
    breaks(&[UNMADE], |s| s.acts[0].frames[1].first = 4);
    // A body that is not there has no command either.
    breaks(&[PLACE, UNMADE], |s| {
        s.acts[1].standing = Standing::Running;
        s.acts[1].frames[0].body = 5;
    });
    breaks(&[UNMADE], |s| s.clocks = 0);
    stays_fit(|s| s.acts[0].accumulators[3] = 1);
    stays_fit(|s| s.accs[0].owner = 2);
    stays_fit(|s| s.acts[0].frames[1].first = 0);
}

#[test]
fn unused_entries() {
    let past_depth: [fn(&mut Frame); 4] = [
        |f| f.offset = 1,
        |f| f.body = 1,
        |f| f.runs = 1,
        |f| f.first = 1,
    ];
    for change in past_depth {
        breaks(&[UNUSED], |s| change(&mut s.acts[0].frames[3]));
        breaks(&[UNUSED], |s| change(&mut s.acts[2].frames[0]));
        breaks(&[UNUSED], |s| change(&mut s.acts[3].frames[15]));
    }
    breaks(&[UNUSED], |s| s.acts[3].hand = 1);
    breaks(&[UNUSED], |s| s.acts[63].standing = Standing::Ended);
    breaks(&[UNUSED], |s| s.acts[63].spawner = 1);
    breaks(&[UNUSED], |s| s.acts[63].accumulators[7] = 1);
    breaks(&[UNUSED], |s| s.acts[63].holds[7] = live(0));
    breaks(&[UNUSED], |s| s.accs[1].value = 1);
    breaks(&[UNUSED], |s| s.accs[15].owner = 1);
    breaks(&[UNUSED], |s| s.accs[15].operator = Operator::Maximum);
    breaks(&[UNUSED], |s| s.acts[0].holds[1].phase = 1);
    breaks(&[UNUSED], |s| s.acts[2].holds[1].clock = 1);
    breaks(&[UNUSED], |s| s.acts[0].spawner = 1);
    breaks(&[UNUSED], |s| s.acts[0].frames[0].runs = 1);
    breaks(&[UNUSED], |s| s.acts[0].frames[0].first = 1);
    breaks(&[UNUSED], |s| s.acts[0].frames[1].runs = 1);
    breaks(&[UNUSED], |s| s.acts[0].frames[2].first = 1);
}

#[test]
fn a_state_without_activity_can_be_fit() {
    let table = table();
    let mut state = State::default();
    assert!(is_fit(&table, &state));
    for activity in [0, 1, 63, 64, usize::MAX] {
        assert_eq!(step_on(&table, &mut state, activity), 14);
    }
    assert_eq!(ready_on(&table, &state), (0, 0));
    state.accumulators = 1;
    assert_eq!(broken_clauses(&table, &state), [UNMADE]);
}
