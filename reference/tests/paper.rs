//! Every case that the paper states.

use reference::calls::{awaited, ready, registrations, run, start, step};
use reference::rules;
use reference::state::{Standing, State};
use reference::table::{count, Table};
use reference::walk::walk;
use reference::Fault;

const WALK_TABLE: [u8; 10] = [2, 2, 0, 5, 1, 1, 1, 0, 1, 0];
const WALK_ORDER: [u8; 10] = [0, 0, 0, 0, 1, 0, 0, 1, 1, 0];
const WALK_TEXT: &str = "\
line act answer taken
1 0 0 1
2 0 0 2
3 0 0 3
4 0 16 3 1
5 1 0 4
6 0 0 5
7 0 0 6
8 1 0 7
9 1 0 8
10 0 15 8
work 8 taken 8 ended 2 of 2
";

#[test]
fn the_printed_walk() {
    assert_eq!(walk(&WALK_TABLE, &WALK_ORDER), WALK_TEXT);
}

#[test]
fn a_bare_end_has_work_1() {
    let table = Table::read(&[1, 0]).unwrap();
    assert_eq!(table.work(), 1);
    assert_eq!(
        walk(&[1, 0], &[0, 0]),
        "line act answer taken\n1 0 0 1\n2 0 15 1\nwork 1 taken 1 ended 1 of 1\n"
    );
}

#[test]
fn refused_tables() {
    let cases: [(&[u8], u8); 8] = [
        (&[0x00, 0x00], 2),
        (&[0x01, 0x13], 3),
        (&[0x01, 0x01], 4),
        (&[0x01, 0x11], 4),
        (&[0x01, 0x02, 0x08, 0x00], 5),
        (&[0x01, 0x06, 0x00, 0x00], 6),
        (&[0x01, 0x10, 0x01, 0x01, 0x00], 7),
        (&[0x01, 0x00, 0x00], 8),
    ];
    for (table, number) in cases {
        check_refused(table, number);
    }
}

/// Every call answers with the number and gives zeros, an empty set, or the state handed in.
fn check_refused(table: &[u8], number: u8) {
    assert_eq!(start(table), (number, State::default()), "{table:02X?}");
    let mut state = rules::start();
    assert_eq!(step(table, &mut state, 0), number);
    assert_eq!(state, rules::start());
    assert_eq!(ready(table, &state), (number, 0));
    assert_eq!(awaited(table, &state, 0), (number, 0));
    assert_eq!(registrations(table, &state), (number, [[0; 16]; 64]));
    assert_eq!(run(table, &[0]).unwrap_err(), number);
    assert_eq!(walk(table, &[0]), format!("table {number}\n"));
}

#[test]
fn sixty_four_activities() {
    let mut table = [3, 7, 0x3F, 1, 0, 5, 2, 0, 0, 0];
    assert_eq!(Table::read(&table).unwrap().counts().activities, 64);
    table[2] = 0x40;
    check_refused(&table, 9);
}

#[test]
fn a_clock_handed_on_inside_a_finish() {
    let table = [3, 2, 0, 6, 1, 0, 5, 2, 1, 0, 1, 0];
    assert_eq!(Table::read(&table).unwrap().work(), 8);
    let run = run(&table, &[0, 0, 0, 0]).unwrap();
    assert_eq!(run.answers, [0, 0, 103, 15]);
    assert_eq!(run.state.activities, 1);
    assert_eq!(run.state.steps, 3);
    assert_eq!(
        run.state.acts[0].standing,
        Standing::Faulted(Fault::ClockInFinish)
    );
}

#[test]
fn rounds_of_clock_and_drop() {
    let rounds = |n| {
        let mut table = vec![1];
        table.extend([2, 0, 4, 0].repeat(n));
        table.push(0);
        table
    };
    let run = run(&rounds(16), &[0; 33]).unwrap();
    assert!(run.answers.iter().all(|&answer| answer == 0));
    assert!(run.state.is_finished());
    assert_eq!(run.state.clocks, 16);
    check_refused(&rounds(17), 10);
}

#[test]
fn five_offers_inside_a_finish() {
    let mut table = vec![3];
    table.extend([8, 0, 0, 12, 1, 0, 0, 0, 6, 1, 10, 0, 0]);
    table.extend([5, 2, 0].repeat(5));
    table.extend([0, 9, 0, 0]);
    let mut order = vec![0; 8];
    order.push(0);
    for child in 1..=5 {
        order.extend([child, child]);
    }
    order.extend([0, 0, 0]);
    let run = run(&table, &order).unwrap();
    assert_eq!(run.answers[8], 16);
    assert!(run.state.is_finished());
    assert_eq!(run.state.acts[0].hand, 5);
}

#[test]
fn work_at_its_limit() {
    let repeats = |fetches| {
        let mut table = vec![3, 7, 255, 1];
        table.extend([13, 0].repeat(fetches));
        table.extend([0, 7, 254, 2, 0, 0]);
        table
    };
    assert_eq!(Table::read(&repeats(0)).unwrap().work(), 65_282);
    assert_eq!(Table::read(&repeats(253)).unwrap().work(), 65_535);
    assert_eq!(count(&repeats(254)).unwrap().work, 65_536);
    check_refused(&repeats(254), 12);
    let run = run(&repeats(253), &vec![0; 65_535]).unwrap();
    assert!(run.answers.iter().all(|&answer| answer == 0));
    assert!(run.state.is_finished());
}

#[test]
fn a_walk_of_nothing() {
    assert_eq!(walk(&[], &[]), "table 1\n");
    assert_eq!(
        walk(&[1, 0], &[]),
        "line act answer taken\nwork 1 taken 0 ended 0 of 1\n"
    );
}

#[test]
fn a_walk_ends_after_65535_bytes() {
    let text = walk(&[1, 0], &vec![1; 70_000]);
    assert_eq!(text.lines().count(), 1 + 65_535 + 1);
    assert!(text.contains("\n65535 1 14 0\nwork 1 taken 0 ended 0 of 1\n"));
}
