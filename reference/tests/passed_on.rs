//! F8: a finish passes a fault on.

use reference::bytes::{self, decode, encode};
use reference::calls::{awaited, ready, run, step};
use reference::fit::is_fit;
use reference::rules;
use reference::state::{Hold, Standing, State};
use reference::table::Table;
use reference::{Fault, Run};

const PASSED_ON: Standing = Standing::Faulted(Fault::FaultInside);

/// A run with exactly these answers.
fn check_run(table: &[u8], order: &[usize], answers: &[u8]) -> Run {
    let run = run(table, order).expect("an accepted table");
    assert_eq!(run.answers, answers, "{table:02X?}");
    run
}

/// The standing of each spawned activity.
fn standings(state: &State) -> Vec<Standing> {
    state.spawned().iter().map(|a| a.standing).collect()
}

/// A child inside main's finish resumes a clock that it does not hold; work 6.
const CHILD: [u8; 11] = [3, 6, 1, 0, 5, 2, 0, 0, 3, 0, 0];

#[test]
fn a_child() {
    assert_eq!(Table::read(&CHILD).unwrap().work(), 6);
    let run = check_run(&CHILD, &[0, 0, 0, 1, 0, 0], &[0, 0, 16, 101, 108, 15]);
    assert_eq!(run.state.steps, 4);
    assert!(run.state.is_finished());
    assert_eq!(run.state.acts[0].standing, PASSED_ON);
}

#[test]
fn a_grandchild_whose_spawner_ended_well() {
    let table = [4, 6, 1, 0, 5, 2, 0, 0, 5, 3, 0, 0, 3, 0, 0];
    let run = check_run(&table, &[0, 0, 1, 1, 0, 2, 0], &[0, 0, 0, 0, 16, 101, 108]);
    assert_eq!(run.state.acts[1].standing, Standing::Ended);
}

#[test]
fn a_child_from_before_the_finish_is_not_inside() {
    let table = [3, 5, 2, 0, 6, 1, 0, 0, 3, 0, 0];
    let run = check_run(&table, &[0, 1, 0, 0, 0], &[0, 101, 0, 0, 0]);
    assert_eq!(run.state.acts[0].standing, Standing::Ended);
    assert_eq!(run.state.steps, 5);
}

#[test]
fn passed_on_from_finish_to_finish() {
    let table = [5, 6, 1, 0, 5, 2, 0, 0, 6, 3, 0, 5, 4, 0, 0, 3, 0, 0];
    let run = check_run(
        &table,
        &[0, 0, 1, 1, 1, 2, 1, 0, 0],
        &[0, 0, 0, 0, 16, 101, 108, 108, 15],
    );
    let unheld = Standing::Faulted(Fault::ClockNotHeld);
    assert_eq!(standings(&run.state), [PASSED_ON, PASSED_ON, unheld]);
}

#[test]
fn waiting_comes_first() {
    let table = [4, 6, 1, 0, 5, 2, 0, 5, 3, 0, 0, 3, 0, 0, 0];
    let order = [0, 0, 0, 1, 0, 2, 0];
    check_run(&table, &order, &[0, 0, 0, 101, 16, 0, 108]);
    // One of the two is waited for until it ends; then nobody, and main is ready.
    for (taken, count) in [(3, 2), (4, 1), (5, 1), (6, 0)] {
        let state = run(&table, &order[..taken]).unwrap().state;
        assert_eq!(awaited(&table, &state, 0), (0, count));
        assert_eq!(ready(&table, &state).1 & 1 == 1, count == 0);
    }
}

#[test]
fn the_clock_that_another_waits_on_goes() {
    let table = [5, 2, 0, 5, 2, 1, 6, 1, 1, 0, 5, 3, 0, 0, 1, 0, 3, 1, 0, 0];
    check_run(
        &table,
        &[0, 0, 0, 0, 0, 1, 2, 1, 0, 1, 1],
        &[0, 0, 0, 0, 16, 0, 101, 16, 108, 0, 0],
    );
}

#[test]
fn read_and_reset_tell_nothing() {
    for command in [10, 11] {
        let table = [2, 8, 0, 0, 5, 1, 0, command, 0, 0, 3, 0, 0];
        let run = check_run(&table, &[0, 0, 1, 0, 0], &[0, 0, 101, 0, 0]);
        assert_eq!(run.state.acts[0].standing, Standing::Ended);
    }
}

#[test]
fn ends_of_other_bodies_tell_nothing() {
    // A spawned body whose child has faulted, a REPEAT body, and body 0.
    let table = [4, 5, 1, 0, 7, 2, 2, 0, 5, 3, 0, 0, 5, 3, 0, 0, 3, 0, 0];
    let order = [0, 1, 2, 1, 0, 0, 3, 0, 0, 4, 0, 0];
    let answers = [0, 0, 101, 0, 0, 0, 101, 0, 0, 101, 0, 0];
    let run = check_run(&table, &order, &answers);
    assert!(run.state.is_finished());
    assert_eq!(run.state.acts[0].standing, Standing::Ended);
}

#[test]
fn the_end_of_a_repeat_body_inside_tells_nothing() {
    // FINISH of a body with a REPEAT; the fault is told at the END of the FINISH body alone.
    let table = [4, 6, 1, 0, 7, 2, 2, 0, 5, 3, 0, 0, 3, 0, 0];
    let order = [0, 0, 0, 1, 0, 0, 2, 0, 0];
    check_run(&table, &order, &[0, 0, 0, 101, 0, 0, 101, 0, 108]);
}

#[test]
fn an_inner_finish_of_the_same_owner_faults_first() {
    // 1 is inside the outer finish alone: the inner one goes on, the outer one faults.
    let outer = [4, 6, 1, 0, 5, 3, 0, 6, 2, 0, 0, 3, 0, 0];
    check_run(&outer, &[0, 0, 1, 0, 0, 0], &[0, 0, 101, 0, 0, 108]);
    // 1 is inside both: the inner one faults, and the outer one never ends.
    let inner = [4, 6, 1, 0, 6, 2, 0, 5, 3, 0, 0, 3, 0, 0];
    check_run(&inner, &[0, 0, 0, 1, 0, 0], &[0, 0, 0, 101, 108, 15]);
}

#[test]
fn f8_counts_as_a_fault_and_waits_for_the_others() {
    // 1 owns a finish, and its child 3 faults; 2 is still running.
    let table = [
        6, 6, 1, 0, 5, 2, 0, 5, 4, 0, 0, 6, 3, 0, 5, 5, 0, 0, 0, 3, 0, 0,
    ];
    let order = [0, 0, 0, 1, 1, 3, 1, 0, 2, 0];
    let answers = [0, 0, 0, 0, 0, 101, 108, 16, 0, 108];
    let run = check_run(&table, &order, &answers);
    assert_eq!(run.state.acts[1].standing, PASSED_ON);
    assert_eq!(run.state.acts[2].standing, Standing::Ended);
}

#[test]
fn one_outside_a_childs_finish_is_inside_its_spawners() {
    // 1 spawns 2, which faults, then owns a finish where nobody faults: 1 goes on, main does not.
    let table = [
        6, 6, 1, 0, 5, 2, 0, 0, 5, 4, 0, 6, 3, 0, 5, 5, 0, 0, 3, 0, 0, 0,
    ];
    let order = [0, 0, 1, 2, 1, 1, 3, 1, 1, 0];
    let answers = [0, 0, 0, 101, 0, 0, 0, 0, 0, 108];
    let run = check_run(&table, &order, &answers);
    assert_eq!(run.state.acts[1].standing, Standing::Ended);
}

#[test]
fn a_child_from_before_two_finishes_is_inside_neither() {
    let table = [4, 5, 3, 0, 6, 1, 6, 1, 0, 5, 2, 0, 0, 0, 3, 0, 0];
    let order = [0, 1, 0, 0, 2, 0, 0, 0, 3, 0, 0];
    let mut answers = [0; 11];
    answers[1] = 101;
    let run = check_run(&table, &order, &answers);
    assert!(run.state.is_finished());
}

/// No run gets there: main has gone on past its first finish though a child of it has faulted.
#[test]
fn a_child_of_an_earlier_finish_is_not_inside() {
    let table = [4, 6, 1, 6, 2, 0, 5, 3, 0, 0, 5, 3, 0, 0, 0];
    let mut state = run(&table, &[0, 0, 1, 0, 0, 0, 2]).unwrap().state;
    assert_eq!(state.acts[0].frames[1].first, 2);
    state.acts[1].standing = Standing::Faulted(Fault::ClockNotHeld);
    check_step(&table, &state, 0, 0);
    state.acts[2].standing = Standing::Faulted(Fault::ClockNotHeld);
    check_step(&table, &state, 0, 108);
}

/// Nor there: the same FINISH in a second run of a REPEAT body, the child of the first run faulted.
#[test]
fn the_same_finish_of_an_earlier_run_is_another() {
    let table = [4, 7, 2, 1, 0, 6, 2, 0, 5, 3, 0, 0, 0];
    let mut state = run(&table, &[0, 0, 0, 1, 0, 0, 0, 0, 2]).unwrap().state;
    assert_eq!(state.acts[0].frames[2].first, 2);
    assert_eq!(state.acts[0].frames[1].runs, 1);
    state.acts[1].standing = Standing::Faulted(Fault::NotOwner);
    check_step(&table, &state, 0, 0);
    state.acts[2].standing = Standing::Faulted(Fault::NotOwner);
    check_step(&table, &state, 0, 108);
}

/// The children spawned after the FINISH in each run of a REPEAT body fault; nobody inside does.
#[test]
fn a_finish_in_a_repeat() {
    // Body 1: FINISH 2, ASYNC 4, END. Body 2: ASYNC 3, END. Body 3: END. Body 4: DROP 0, END.
    let table = [5, 7, 2, 1, 0, 6, 2, 5, 4, 0, 0, 5, 3, 0, 0, 0, 4, 0, 0];
    let first = [0, 0, 0, 1, 0, 0, 2, 0];
    let second = [0, 0, 3, 0, 0, 4, 0, 0];
    let order = [first, second].concat();
    let mut answers = vec![0; order.len()];
    (answers[6], answers[13]) = (101, 101);
    let run = check_run(&table, &order, &answers);
    assert!(run.state.is_finished());
    assert_eq!(run.state.acts[0].standing, Standing::Ended);
}

/// A fit state, by the call and over bytes.
fn check_step(table: &[u8], state: &State, activity: usize, answer: u8) {
    assert!(is_fit(&Table::read(table).unwrap(), state));
    let mut after = state.clone();
    assert_eq!(step(table, &mut after, activity), answer);
    let mut encoded = encode(state);
    assert_eq!(bytes::step(table, &mut encoded, activity), answer);
    assert_eq!(encoded, encode(&after));
}

#[test]
fn every_fault_is_passed_on() {
    let state = run(&CHILD, &[0, 0]).unwrap().state;
    for fault in Fault::ALL {
        let mut state = state.clone();
        end_with(&mut state, 1, Standing::Faulted(fault));
        check_step(&CHILD, &state, 0, 108);
    }
    let mut ended = state.clone();
    end_with(&mut ended, 1, Standing::Ended);
    check_step(&CHILD, &ended, 0, 0);
}

fn end_with(state: &mut State, activity: usize, standing: Standing) {
    let own = &mut state.acts[activity];
    own.standing = standing;
    own.depth = 0;
    own.frames = Default::default();
    own.holds = Default::default();
}

#[test]
fn more_steps_than_the_work_come_in_place_of_it() {
    let mut state = run(&CHILD, &[0, 0, 1]).unwrap().state;
    state.steps = 6;
    assert_eq!(awaited(&CHILD, &state, 0), (0, 0));
    assert_eq!(ready(&CHILD, &state), (0, 1));
    check_step(&CHILD, &state, 0, 17);
    state.steps = 5;
    check_step(&CHILD, &state, 0, 108);
}

#[test]
fn no_other_limit_counts() {
    let mut state = run(&CHILD, &[0, 0, 1]).unwrap().state;
    (state.clocks, state.accumulators) = (16, 16);
    for activity in &mut state.acts[2..] {
        activity.standing = Standing::Ended;
    }
    state.activities = 64;
    check_step(&CHILD, &state, 0, 108);
}

#[test]
fn waiting_comes_before_more_steps_than_the_work() {
    let table = [4, 6, 1, 0, 5, 2, 0, 5, 3, 0, 0, 3, 0, 0, 0];
    let mut state = run(&table, &[0, 0, 0, 1]).unwrap().state;
    state.steps = Table::read(&table).unwrap().work();
    check_step(&table, &state, 0, 16);
}

#[test]
fn the_hand_stays_and_bodies_and_clocks_go() {
    // Main puts 7, makes a clock and an accumulator, and runs a REPEAT of a FINISH.
    let table = [
        4, 12, 7, 0, 0, 0, 2, 1, 8, 3, 2, 7, 2, 1, 0, 6, 2, 0, 5, 3, 0, 0, 3, 1, 0,
    ];
    let order = [0, 0, 0, 0, 0, 0, 1];
    let before = run(&table, &order).unwrap().state;
    assert_eq!(before.acts[0].stack().len(), 3);
    assert_eq!(before.acts[0].held().count(), 1);
    let order = [&order[..], &[0]].concat();
    let after = check_run(&table, &order, &[0, 0, 0, 0, 0, 0, 101, 108]).state;
    let mut expected = before.clone();
    expected.steps += 1;
    end_with(&mut expected, 0, PASSED_ON);
    assert_eq!(after, expected);
    let main = &after.acts[0];
    assert_eq!((main.hand, main.depth, main.accumulators[3]), (7, 0, 1));
    assert_eq!(main.holds, [Hold::default(); 8]);
    assert_eq!(rules::registrations(&after), [[0; 16]; 64]);
}

#[test]
fn the_fault_byte_is_8() {
    let state = run(&CHILD, &[0, 0, 1, 0]).unwrap().state;
    let mut encoded = encode(&state);
    assert_eq!(encoded[464 + 4..464 + 6], [3, 8]);
    assert_eq!(decode(&encoded), Some(state));
    assert_eq!(bytes::step(&CHILD, &mut encoded, 0), 15);
    encoded[464 + 5] = 9;
    assert_eq!(decode(&encoded), None);
    assert_eq!(bytes::step(&CHILD, &mut encoded, 0), 13);
}
