//! How many activities an activity waits for.

use reference::calls::{awaited, ready, step};
use reference::fit::is_fit;
use reference::rules;
use reference::state::{Hold, Registration, Standing, State};
use reference::table::Table;
use reference::walk::walk;
use reference::{bytes, run, Fault};

/// A table of these bodies; each body gets its END.
fn table_of(bodies: &[&[u8]]) -> Vec<u8> {
    let mut table = vec![bodies.len() as u8];
    for body in bodies {
        table.extend(*body);
        table.push(0);
    }
    table
}

/// A run of a table in which exactly these steps wait, each for so many; steps count from 1.
fn check_waits(table: &[u8], order: &[usize], waits: &[(usize, u8)]) {
    let mut state = rules::start();
    for (number, &activity) in (1..).zip(order) {
        let wait = waits.iter().find(|(at, _)| *at == number);
        let (answer, count) = wait.map_or((0, 0), |&(_, count)| (16, count));
        check_number(table, &state, activity, count);
        assert_eq!(step(table, &mut state, activity), answer, "step {number}");
    }
}

/// The number of an activity to which 1 to 15 do not apply, in every form of the call.
fn check_number(table: &[u8], state: &State, activity: usize, count: u8) {
    let read = Table::read(table).expect("an accepted table");
    assert!(is_fit(&read, state));
    assert_eq!(awaited(table, state, activity), (0, count), "{activity}");
    assert_eq!(rules::awaited(&read, state, activity), Ok(count));
    let encoded = bytes::encode(state);
    assert_eq!(bytes::awaited(table, &encoded, activity), (0, count));
    let set = ready(table, state).1;
    assert_eq!(set >> activity & 1 == 1, count == 0, "ready {activity}");
}

/// The state that accepted steps reach.
fn reached(table: &[u8], order: &[usize]) -> State {
    let run = run(table, order).expect("an accepted table");
    assert!(run.answers.iter().all(|&answer| answer == 0));
    run.state
}

fn held(clock: u8, phase: u32, registration: Registration) -> Hold {
    Hold {
        phase,
        clock,
        registration,
    }
}

// Meetings

#[test]
fn one_behind_on_two_clocks_counts_once() {
    let table = [2, 2, 0, 2, 1, 5, 1, 3, 1, 0, 1, 0];
    check_waits(&table, &[0, 0, 0, 0, 0, 1, 0], &[(5, 1)]);
}

#[test]
fn all_behind_count() {
    let table = [2, 2, 0, 5, 1, 1, 5, 1, 1, 5, 1, 1, 1, 0, 1, 0];
    let order = [0, 0, 0, 0, 0, 0, 2, 0, 1, 0, 3, 0];
    check_waits(&table, &order, &[(6, 3), (8, 2), (10, 1)]);
}

#[test]
fn those_on_different_clocks_count_together() {
    // 1 is on clock 0, 2 on clock 1, 3 on both, 4 on none.
    let main = [2, 0, 2, 1, 5, 1, 1, 5, 1, 2, 5, 1, 3, 5, 1, 0, 1];
    let table = table_of(&[&main, &[1]]);
    let order = [0, 0, 0, 0, 0, 0, 0, 0, 3, 0, 4, 0, 2, 0, 1, 0];
    check_waits(&table, &order, &[(8, 3), (10, 2), (12, 2), (14, 1)]);
}

#[test]
fn arriving_waits_for_nobody() {
    let table = table_of(&[&[2, 0, 5, 1, 1, 1], &[1]]);
    let state = reached(&table, &[0, 0]);
    check_number(&table, &state, 0, 0);
    check_number(&table, &state, 1, 0);
}

#[test]
fn a_meeting_without_clocks_waits_for_nobody() {
    let table = table_of(&[&[5, 1, 0, 1], &[2, 0]]);
    let state = reached(&table, &[0, 0, 1]);
    check_number(&table, &state, 0, 0);
}

#[test]
fn ended_dropped_and_resumed_holders_do_not_count() {
    let table = table_of(&[
        &[2, 0, 5, 1, 1, 5, 2, 1, 5, 3, 1, 5, 3, 1, 1],
        &[4, 0, 13, 0],
        &[3, 0, 13, 0],
        &[],
    ]);
    let order = [0, 0, 0, 0, 0, 0, 0, 1, 0, 2, 0, 3, 0, 4, 0];
    check_waits(&table, &order, &[(7, 4), (9, 3), (11, 2), (13, 1)]);
}

#[test]
fn a_holder_a_phase_behind_counts_until_it_arrives_again() {
    let table = table_of(&[&[2, 0, 5, 1, 1, 1, 1], &[1, 1]]);
    let order = [0, 0, 0, 0, 1, 0, 0, 0, 1, 0, 1, 0];
    check_waits(&table, &order, &[(4, 1), (8, 1), (10, 1)]);
}

/// Main and four others hold clock 0, and 1 holds clock 1 with main; main is at the meeting.
fn five_holders() -> (Vec<u8>, State) {
    let main = [2, 0, 2, 1, 5, 1, 3, 5, 1, 1, 5, 1, 1, 5, 1, 1, 1];
    let table = table_of(&[&main, &[1]]);
    let state = reached(&table, &[0; 7]);
    (table, state)
}

#[test]
fn earlier_and_live_count_and_quiesced_and_later_do_not() {
    let (table, mut state) = five_holders();
    check_number(&table, &state, 0, 4);
    for (activity, hold) in [
        (0, held(0, 3, Registration::Quiesced)),
        (1, held(0, 2, Registration::Quiesced)),
        (2, held(0, 3, Registration::Live)),
        (3, held(0, 3, Registration::Quiesced)),
        (4, held(0, 4, Registration::Live)),
    ] {
        state.acts[activity].holds[0] = hold;
    }
    state.acts[1].holds[1] = Hold::default();
    check_number(&table, &state, 0, 2);
    // Behind on clock 1 in place of clock 0, then on both.
    state.acts[1].holds[0] = held(0, 4, Registration::Live);
    state.acts[1].holds[1] = held(1, 0, Registration::Live);
    check_number(&table, &state, 0, 2);
    state.acts[1].holds[0] = held(0, 0, Registration::Live);
    check_number(&table, &state, 0, 2);
}

#[test]
fn the_clock_counts_and_not_its_name() {
    let (table, mut state) = five_holders();
    for activity in 2..5 {
        state.acts[activity].holds.swap(0, 7);
    }
    state.acts[1].holds.swap(0, 1);
    check_number(&table, &state, 0, 4);
}

/// Not reached: arrival quiesces all own clocks. A phase in which a holder is live is not
/// quiescent, whoever the holder is.
#[test]
fn one_live_at_its_own_meeting_counts_itself() {
    let (table, mut state) = five_holders();
    state.acts[0].holds[0].registration = Registration::Live;
    check_number(&table, &state, 0, 5);
    state.acts[0].holds[1].registration = Registration::Live;
    check_number(&table, &state, 0, 5);
    for activity in 1..5 {
        state.acts[activity].holds = Default::default();
    }
    check_number(&table, &state, 0, 1);
    assert_eq!(step(&table, &mut state, 0), 16);
}

#[test]
fn sixty_four_behind() {
    let table = [3, 2, 0, 7, 63, 1, 1, 0, 5, 2, 1, 0, 1, 0];
    let mut state = reached(&table, &[0; 129]);
    check_number(&table, &state, 0, 63);
    state.acts[0].holds[0].registration = Registration::Live;
    check_number(&table, &state, 0, 64);
}

// Finishes

#[test]
fn all_inside_count() {
    let table = [3, 6, 1, 0, 5, 2, 0, 5, 2, 0, 0, 0];
    check_waits(&table, &[0, 0, 0, 0, 1, 0, 2, 0], &[(4, 2), (6, 1)]);
}

#[test]
fn those_below_one_inside_count_and_those_from_before_do_not() {
    // 1 is from before and spawns 3 during the finish; 2 is inside and spawns 4.
    let table = table_of(&[&[5, 2, 0, 6, 1], &[5, 2, 0], &[5, 3, 0], &[]]);
    let order = [0, 0, 0, 1, 0, 2, 0, 2, 0, 4, 0];
    check_waits(&table, &order, &[(5, 1), (7, 2), (9, 1)]);
}

#[test]
fn a_finish_within_a_finish_counts_its_own() {
    // 1 is inside the outer finish only, 2 and 3 inside both.
    let table = table_of(&[&[6, 1], &[5, 3, 0, 6, 2], &[5, 3, 0, 5, 3, 0], &[]]);
    let order = [0, 0, 0, 0, 0, 0, 2, 0, 3, 0, 0, 1, 0];
    check_waits(&table, &order, &[(6, 2), (8, 1), (11, 1)]);
}

#[test]
fn another_end_waits_for_nobody() {
    // END of a REPEAT body inside a FINISH, and of body 0, with unended children.
    let table = table_of(&[&[6, 1, 5, 3, 0], &[7, 2, 2], &[5, 3, 0], &[]]);
    let order = [0, 0, 0, 0, 0, 0, 0, 1, 2, 0, 0, 0];
    check_waits(&table, &order, &[(7, 2)]);
    let state = reached(&table, &[0, 0, 0, 0, 0, 0, 1, 2, 0, 0]);
    check_number(&table, &state, 0, 0);
    assert!(!state.acts[3].has_ended());
}

/// Not reached: the finish began when there were fewer activities than there were.
#[test]
fn the_first_activity_of_a_finish_decides() {
    let table = table_of(&[&[5, 2, 0, 5, 2, 0, 6, 1], &[5, 2, 0], &[13, 0]]);
    let mut state = reached(&table, &[0, 0, 0, 0]);
    for (first, count) in [(3, 1), (2, 2), (1, 3), (0, 3), (4, 0)] {
        state.acts[0].frames[1].first = first;
        check_number(&table, &state, 0, count);
    }
}

// READ and RESET

#[test]
fn all_descendants_count() {
    let table = [3, 8, 0, 0, 5, 1, 0, 10, 0, 0, 5, 2, 0, 0, 0];
    let waits = [(3, 1), (5, 2), (7, 1)];
    check_waits(&table, &[0, 0, 0, 1, 0, 1, 0, 2, 0], &waits);
    let reset = [3, 8, 0, 0, 5, 1, 0, 11, 0, 0, 5, 2, 0, 0, 0];
    check_waits(&reset, &[0, 0, 0, 1, 0, 1, 0, 2, 0], &waits);
}

#[test]
fn those_beside_and_above_do_not_count() {
    // 1 and 2 are main's; 2 has the child 3.
    let table = table_of(&[&[5, 1, 0, 5, 1, 0], &[8, 0, 0, 5, 2, 0, 10, 0], &[]]);
    let state = reached(&table, &[0, 0, 1, 2, 2]);
    check_number(&table, &state, 2, 1);
    let state = reached(&table, &[0, 0, 1, 2, 2, 3]);
    check_number(&table, &state, 2, 0);
}

#[test]
fn a_read_inside_a_finish_counts_those_from_before_too() {
    let table = table_of(&[&[8, 0, 0, 5, 2, 0, 6, 1], &[5, 2, 0, 10, 0], &[]]);
    let state = reached(&table, &[0, 0, 0, 0]);
    check_number(&table, &state, 0, 2);
}

#[test]
fn a_faulted_descendant_has_ended() {
    let table = table_of(&[&[8, 0, 0, 5, 1, 0, 5, 1, 0, 10, 0], &[4, 0]]);
    let mut state = reached(&table, &[0, 0, 0]);
    check_number(&table, &state, 0, 2);
    assert_eq!(step(&table, &mut state, 1), 101);
    check_number(&table, &state, 0, 1);
}

// No number

#[test]
fn one_whose_command_faults_waits_for_nobody() {
    // READ while holding a clock, with an unended child.
    let table = table_of(&[&[8, 0, 0, 2, 0, 5, 1, 0, 10, 0], &[]]);
    let mut state = reached(&table, &[0; 3]);
    check_number(&table, &state, 0, 0);
    assert_eq!(step(&table, &mut state, 0), 107);
}

#[test]
fn a_limit_is_no_waiting() {
    let table = table_of(&[&[13, 0]]);
    let mut state = rules::start();
    state.steps = 2;
    check_number(&table, &state, 0, 0);
    assert_eq!(step(&table, &mut state, 0), 17);
}

/// The number, with 0 for the count, in every form of the call.
fn check_refused(table: &[u8], state: &State, activity: usize, number: u8) {
    assert_eq!(awaited(table, state, activity), (number, 0));
    let encoded = bytes::encode(state);
    assert_eq!(bytes::awaited(table, &encoded, activity), (number, 0));
}

#[test]
fn refused_calls_give_0() {
    let table = table_of(&[&[8, 0, 0, 5, 1, 0, 10, 0], &[]]);
    let state = reached(&table, &[0, 0]);
    check_number(&table, &state, 0, 1);
    check_refused(&[1, 1], &state, 0, 4);
    for unspawned in [2, 63, 64, 256, usize::MAX] {
        check_refused(&table, &state, unspawned, 14);
    }
    for standing in [Standing::Ended, Standing::Faulted(Fault::NameHeld)] {
        let mut ended = state.clone();
        ended.acts[0].standing = standing;
        ended.acts[0].depth = 0;
        ended.acts[0].frames = Default::default();
        check_refused(&table, &ended, 0, 15);
    }
    let mut unfit = state.clone();
    unfit.acts[1].spawner = 1;
    for activity in [0, 1, 2, 64] {
        check_refused(&table, &unfit, activity, 13);
    }
    assert_eq!(bytes::awaited(&table, &[], 0), (13, 0));
    assert_eq!(bytes::awaited(&[0, 0], &[], 0), (2, 0));
}

// The walk

#[test]
fn a_walk_line_ends_with_the_number() {
    let table = [3, 8, 0, 0, 5, 1, 0, 10, 0, 0, 5, 2, 0, 0, 0];
    let text = walk(&table, &[0, 0, 0, 1, 0, 1, 0, 2, 0, 1, 3]);
    let lines: Vec<&str> = text.lines().collect();
    assert_eq!(lines[3], "3 0 16 2 1");
    assert_eq!(lines[4], "4 1 0 3");
    assert_eq!(lines[5], "5 0 16 3 2");
    assert_eq!(lines[7], "7 0 16 4 1");
    assert_eq!(lines[9..12], ["9 0 0 6", "10 1 15 6", "11 3 14 6"]);
}

#[test]
fn a_walk_line_with_two_digits() {
    let table = [3, 2, 0, 7, 63, 1, 1, 0, 5, 2, 1, 0, 1, 0];
    let text = walk(&table, &[&[0; 130][..], &[1, 0]].concat());
    assert!(text.contains("\n130 0 16 129 63\n131 1 0 130\n132 0 16 130 62\nwork "));
}
