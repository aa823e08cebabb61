//! CHOOSE: a body under a condition.

use reference::account::Account;
use reference::bytes::{decode, encode};
use reference::calls::{accounted, run, step};
use reference::fit::broken_clauses;
use reference::state::{Frame, Standing, State};
use reference::table::Table;
use reference::walk::walk;
use reference::{Fault, Run};

/// A run with exactly these answers.
fn check_run(table: &[u8], order: &[usize], answers: &[u8]) -> Run {
    let run = run(table, order).expect("an accepted table");
    assert_eq!(run.answers, answers, "{table:02X?}");
    run
}

fn read(table: &[u8]) -> Table {
    Table::read(table).expect("an accepted table")
}

/// The account of a run and the state after it.
fn account(table: &[u8], order: &[usize]) -> (Account, State) {
    let (run, account) = accounted(table, order).expect("an accepted table");
    assert!(account.adds_up(&read(table), &run.state));
    (account, run.state)
}

/// PUT 1, then CHOOSE of body 1, which is an END.
const RUN: [u8; 10] = [2, 12, 1, 0, 0, 0, 17, 1, 0, 0];

// The hand

#[test]
fn hand_0_skips_the_body() {
    let table = [2, 17, 1, 0, 0];
    let run = check_run(&table, &[0; 3], &[0, 0, 15]);
    assert_eq!((read(&table).work(), run.state.steps), (3, 2));
    let (account, _) = account(&table, &[0; 3]);
    assert_eq!((account.spared, account.skipped), (1, 1));
}

#[test]
fn another_hand_runs_the_body_once() {
    let run = check_run(&RUN, &[0; 5], &[0, 0, 0, 0, 15]);
    assert_eq!((read(&RUN).work(), run.state.steps), (4, 4));
    assert_eq!(account(&RUN, &[0; 5]).0.spared, 0);
    for bit in 0..32 {
        let value = 1u32 << bit;
        let table = [&[2, 12], &value.to_le_bytes()[..], &[17, 1, 0, 0]].concat();
        check_run(&table, &[0; 5], &[0, 0, 0, 0, 15]);
    }
}

#[test]
fn one_round_skips_and_the_next_runs() {
    let table = [3, 7, 2, 1, 0, 17, 2, 12, 5, 0, 0, 0, 0, 0];
    let run = check_run(&table, &[0; 10], &[0, 0, 0, 0, 0, 0, 0, 0, 0, 15]);
    assert_eq!((read(&table).work(), run.state.steps), (10, 9));
}

#[test]
fn the_hand_looked_at_is_the_own_one() {
    // Main puts 1 and spawns one that puts 0 before its CHOOSE; main's own then runs.
    let child = [12, 0, 0, 0, 0, 17, 2, 0];
    let table = [&[3, 12, 1, 0, 0, 0, 5, 1, 0, 17, 2, 0], &child[..], &[0]].concat();
    let run = check_run(&table, &[0, 0, 1, 1, 0, 0, 0, 1], &[0; 8]);
    assert!(run.state.is_finished());
    // A child's hand is at first its spawner's.
    let inherited = [3, 12, 9, 0, 0, 0, 5, 1, 0, 0, 17, 2, 0, 0];
    let state = check_run(&inherited, &[0, 0, 1], &[0; 3]).state;
    assert_eq!(state.acts[1].stack().len(), 2);
}

#[test]
fn the_body_may_change_the_hand() {
    // The body puts 0; it still ends once, and goes on after the CHOOSE.
    let table = [2, 12, 7, 0, 0, 0, 17, 1, 14, 3, 0, 12, 0, 0, 0, 0, 0];
    let run = check_run(&table, &[0; 6], &[0; 6]);
    assert!(run.state.is_finished());
    assert_eq!((run.state.acts[0].hand, run.state.cells[3]), (0, 0));
    // The hand may be 0 in the body; the state stays fit.
    let inside = check_run(&table, &[0; 3], &[0; 3]).state;
    assert_eq!(inside.acts[0].hand, 0);
    assert_eq!(broken_clauses(&read(&table), &inside), [""; 0]);
}

#[test]
fn a_read_tells_whether_to_run() {
    // ACC 0 sum, ASYNC of one that offers v, READ, CHOOSE of a body that stores.
    for (value, cell) in [(0, 0), (6, 6)] {
        let main = [8, 0, 0, 12, value, 0, 0, 0, 5, 2, 0, 10, 0, 17, 1, 0];
        let table = [&[3], &main[..], &[14, 4, 0, 9, 0, 0]].concat();
        let order = [0, 0, 0, 0, 1, 1, 0, 0, 0, 0, 0];
        let run = run(&table, &order).unwrap();
        assert_eq!(run.answers[3], 16);
        assert!(run.state.is_finished());
        assert_eq!(run.state.cells[4], cell);
    }
}

// Its END

#[test]
fn its_end_waits_for_nobody() {
    let table = [3, 12, 1, 0, 0, 0, 17, 1, 0, 5, 2, 0, 0, 0];
    check_run(&table, &[0, 0, 0, 0, 0, 1], &[0; 6]);
    let finish = [4, 12, 1, 0, 0, 0, 6, 1, 0, 17, 2, 0, 5, 3, 0, 0, 0];
    let order = [0, 0, 0, 0, 0, 0, 1, 0, 0];
    check_run(&finish, &order, &[0, 0, 0, 0, 0, 16, 0, 0, 0]);
}

#[test]
fn its_end_tells_no_fault() {
    // The child drops a clock that it does not hold; inside a finish F8 comes at the finish's END.
    let table = [3, 12, 1, 0, 0, 0, 17, 1, 0, 5, 2, 0, 0, 4, 0, 0];
    check_run(&table, &[0, 0, 0, 1, 0, 0], &[0, 0, 0, 101, 0, 0]);
    let finish = [4, 12, 1, 0, 0, 0, 6, 1, 0, 17, 2, 0, 5, 3, 0, 0, 4, 0, 0];
    let order = [0, 0, 0, 0, 1, 0, 0, 0];
    check_run(&finish, &order, &[0, 0, 0, 0, 101, 0, 108, 15]);
}

#[test]
fn a_finish_within_passes_a_fault_on() {
    let table = [4, 12, 1, 0, 0, 0, 17, 1, 0, 6, 2, 0, 5, 3, 0, 0, 4, 0, 0];
    let order = [0, 0, 0, 0, 0, 1, 0, 0];
    let run = check_run(&table, &order, &[0, 0, 0, 0, 16, 101, 108, 15]);
    let passed_on = Standing::Faulted(Fault::FaultInside);
    assert_eq!(run.state.acts[0].standing, passed_on);
    assert_eq!(run.state.acts[0].depth, 0);
}

// F3

#[test]
fn an_own_finish_counts_through_it() {
    let table = [4, 2, 0, 12, 1, 0, 0, 0, 6, 1, 0, 17, 2, 0, 5, 3, 1, 0, 0];
    check_run(&table, &[0; 5], &[0, 0, 0, 0, 103]);
    // Alone it is no FINISH body.
    let alone = [3, 2, 0, 12, 1, 0, 0, 0, 17, 1, 0, 5, 2, 1, 0, 0];
    check_run(&alone, &[0; 4], &[0; 4]);
    // A FINISH in the CHOOSE body.
    let within = [4, 2, 0, 12, 1, 0, 0, 0, 17, 1, 0, 6, 2, 0, 5, 3, 1, 0, 0];
    check_run(&within, &[0; 5], &[0, 0, 0, 0, 103]);
}

// What stands in the state

#[test]
fn the_stacked_body_has_no_runs_and_no_first() {
    let state = check_run(&RUN, &[0, 0], &[0, 0]).state;
    let main = &state.acts[0];
    assert_eq!(main.depth, 2);
    assert_eq!(main.frames[0].offset, 5);
    let chosen = Frame {
        body: 1,
        ..Frame::default()
    };
    assert_eq!(main.frames[1], chosen);
    let bytes = encode(&state);
    assert_eq!(bytes[0], 1);
    assert_eq!(bytes[464 + 80 + 8..464 + 80 + 16], [0, 0, 1, 0, 0, 0, 0, 0]);
    assert_eq!(decode(&bytes), Some(state));
}

#[test]
fn skipping_goes_on_after_two_bytes() {
    let state = check_run(&[2, 17, 1, 0, 0], &[0], &[0]).state;
    assert_eq!(
        (state.acts[0].depth, state.acts[0].frames[0].offset),
        (1, 2)
    );
}

/// Body 0: PUT 1, CHOOSE 1, CHOOSE 2, FINISH 1, REPEAT 2 1, NEXT, END. Bodies 1 and 2: END.
const MANY: [u8; 19] = [3, 12, 1, 0, 0, 0, 17, 1, 17, 2, 6, 1, 7, 2, 1, 1, 0, 0, 0];

/// A state in which main is in body 1, run by the CHOOSE, breaks exactly these clauses after a
/// change.
fn breaks(clauses: &[&str], change: impl Fn(&mut State)) {
    let mut state = run(&MANY, &[0, 0]).unwrap().state;
    change(&mut state);
    assert_eq!(broken_clauses(&read(&MANY), &state), clauses);
    let number = step(&MANY, &mut state, 0);
    assert_eq!(number == 13, !clauses.is_empty(), "{clauses:?}");
}

const NOT_RUN: &str = "a stacked body is not the one run by the body below it";
const RUNS: &str = "a repeat has 0 runs left or more than its n";
const UNUSED: &str = "an unused entry is not 0";

#[test]
fn number_13() {
    breaks(&[], |_| {});
    breaks(&[UNUSED], |s| s.acts[0].frames[1].runs = 1);
    breaks(&[UNUSED], |s| s.acts[0].frames[1].first = 1);
    breaks(&[NOT_RUN], |s| s.acts[0].frames[1].body = 2);
    // The CHOOSE of another body, a NEXT.
    breaks(&[NOT_RUN], |s| s.acts[0].frames[0].offset = 7);
    breaks(&[NOT_RUN], |s| s.acts[0].frames[0].offset = 14);
    // The REPEAT of the same body has no runs left; a FINISH body may have 0 for its first.
    breaks(&[RUNS], |s| s.acts[0].frames[0].offset = 11);
    breaks(&[], |s| s.acts[0].frames[0].offset = 9);
    // The hand may have become 0 in the body.
    breaks(&[], |s| s.acts[0].hand = 0);
    // The other CHOOSE with its own body.
    breaks(&[], |s| {
        s.acts[0].frames[0].offset = 7;
        s.acts[0].frames[1].body = 2;
    });
}

#[test]
fn it_needs_no_room_but_a_step() {
    let table = read(&RUN);
    let mut state = run(&RUN, &[0]).unwrap().state;
    state.clocks = 16;
    state.accumulators = 16;
    for activity in &mut state.acts[1..] {
        activity.standing = Standing::Ended;
    }
    state.activities = 64;
    assert_eq!(step(&RUN, &mut state.clone(), 0), 0);
    for hand in [0, 1] {
        state.acts[0].hand = hand;
        state.steps = table.work();
        assert_eq!(step(&RUN, &mut state, 0), 17);
    }
}

#[test]
fn sixteen_deep() {
    let mut table = vec![16];
    for body in 1..16 {
        table.extend([12, 1, 0, 0, 0, 17, body, 0]);
    }
    table.push(0);
    let run = check_run(&table, &[0; 46], &[0; 46]);
    assert_eq!(read(&table).work(), 46);
    assert!(run.state.is_finished());
    assert_eq!(
        check_run(&table, &[0; 30], &[0; 30]).state.acts[0].depth,
        16
    );
}

// The account of work

#[test]
fn what_is_spared_is_the_work_of_the_body() {
    // CHOOSE of a body with REPEAT 3 of an END and a child with a meeting.
    let table = [4, 17, 1, 0, 7, 3, 2, 5, 3, 0, 0, 0, 1, 0];
    let (account, state) = account(&table, &[0; 3]);
    assert_eq!(read(&table).work(), 2 + 4 + 4 + 1);
    assert_eq!((account.taken, account.spared, account.skipped), (2, 9, 1));
    assert_eq!(state.activities, 1);
}

#[test]
fn a_fault_leaves_work_over() {
    // Spared 1, then a fault, then END not taken.
    let table = [2, 17, 1, 4, 0, 0, 0];
    let (account, state) = account(&table, &[0; 3]);
    assert_eq!((account.taken, account.spared), (2, 1));
    assert!(state.is_finished() && account.taken + account.spared < 4);
}

#[test]
fn an_account_that_does_not_add_up() {
    let table = read(&[2, 17, 1, 0, 0]);
    let (mut account, state) = account(&[2, 17, 1, 0, 0], &[0; 2]);
    account.spared += 1;
    assert!(!account.adds_up(&table, &state));
    account.spared -= 2;
    assert!(!account.adds_up(&table, &state));
    account.spared += 1;
    account.skipped = 0;
    assert!(!account.adds_up(&table, &state));
}

#[test]
fn a_walk_tells_work_and_taken() {
    let text = "line act answer taken\n1 0 0 1\n2 0 0 2\n3 0 15 2\nwork 3 taken 2 ended 1 of 1\n";
    assert_eq!(walk(&[2, 17, 1, 0, 0], &[0; 3]), text);
    assert_eq!(walk(&[1, 17], &[0]), "table 4\n");
    assert_eq!(walk(&[1, 17, 0, 0], &[0]), "table 6\n");
}
