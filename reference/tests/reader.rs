//! Reading and counting tables.

use reference::table::{count, Table};

fn number(table: &[u8]) -> u8 {
    Table::read(table).map_or_else(|refusal| refusal.number(), |_| 0)
}

#[test]
fn commands_after_atom_are_tried_in_turn() {
    assert_eq!(number(&[1, 0x10, 1, 0x12]), 3);
    assert_eq!(number(&[1, 0x10, 1, 0x13]), 3);
    assert_eq!(number(&[1, 0x10, 1, 0x11]), 4);
    assert_eq!(number(&[1, 0x10, 1, 0x05]), 4);
    assert_eq!(number(&[1, 0x10, 1, 0x02, 9, 0]), 5);
    assert_eq!(number(&[1, 0x10, 1, 0x06, 0, 0]), 6);
    assert_eq!(number(&[1, 0x10, 1, 0x01, 0]), 7);
    assert_eq!(number(&[1, 0x10, 1, 0x11, 0, 0]), 6);
    assert_eq!(number(&[2, 0x10, 1, 0x11, 1, 0, 0]), 7);
}

#[test]
fn atom_has_one_to_eight_commands() {
    assert_eq!(number(&[1, 0x10, 0, 0]), 5);
    assert_eq!(number(&[1, 0x10, 9, 0]), 5);
    assert_eq!(number(&[1, 0x10]), 4);
    assert_eq!(number(&[1, 0x10, 1]), 4);
    assert_eq!(number(&[1, 0x10, 1, 0]), 7);
    assert_eq!(number(&[1, 0x10, 1, 0x10, 1, 13, 0, 0]), 7);
    assert_eq!(number(&[1, 0x10, 1, 0x10, 9]), 5);
    let mut eight = vec![1, 0x10, 8];
    eight.extend([15, 15].repeat(8));
    eight.push(0);
    assert_eq!(count(&eight).unwrap().work, 2);
}

#[test]
fn lengths() {
    assert_eq!(number(&[]), 1);
    assert_eq!(number(&[1]), 1);
    let nexts = |n: usize| {
        let mut table = vec![1; n];
        table[n - 1] = 0;
        table
    };
    assert_eq!(number(&nexts(2048)), 0);
    assert_eq!(number(&nexts(2049)), 1);
}

#[test]
fn numbers_of_bodies() {
    assert_eq!(number(&[17, 0]), 2);
    assert_eq!(number(&[255, 0]), 2);
    let mut sixteen = vec![16];
    sixteen.extend([0; 16]);
    assert_eq!(number(&sixteen), 0);
    sixteen.pop();
    assert_eq!(number(&sixteen), 4);
}

#[test]
fn cut_commands() {
    let cut: [&[u8]; 9] = [
        &[1, 2],
        &[1, 5, 0],
        &[1, 6],
        &[1, 7, 0],
        &[1, 8, 9],
        &[1, 12, 0, 0, 0],
        &[1, 13],
        &[1, 17],
        &[2, 0],
    ];
    for table in cut {
        assert_eq!(number(table), 4, "{table:02X?}");
    }
}

#[test]
fn operands_out_of_range() {
    for code in [2, 3, 4, 9, 10, 11] {
        assert_eq!(number(&[1, code, 8, 0]), 5);
        assert_eq!(number(&[1, code, 7, 0]), 0);
    }
    for code in [13, 14, 15] {
        assert_eq!(number(&[1, code, 16, 0]), 5);
        assert_eq!(number(&[1, code, 15, 0]), 0);
    }
    assert_eq!(number(&[1, 8, 8, 0, 0]), 5);
    assert_eq!(number(&[1, 8, 0, 3, 0]), 5);
}

#[test]
fn named_bodies_are_greater() {
    for head in [&[5u8, 1, 0][..], &[6, 1], &[7, 0, 1], &[17, 1]] {
        let with_two_bodies = [&[2], head, &[0, 0]].concat();
        assert_eq!(number(&with_two_bodies), 0);
        let with_one_body = [&[1], head, &[0]].concat();
        assert_eq!(number(&with_one_body), 6);
        let in_body_one = [&[2, 0], head, &[0]].concat();
        assert_eq!(number(&in_body_one), 6);
    }
}

#[test]
fn the_first_failing_command_decides() {
    assert_eq!(number(&[1, 2, 9, 0x12]), 5);
    assert_eq!(number(&[1, 6, 0, 2, 9, 0]), 6);
    assert_eq!(number(&[1, 0x12, 2, 9, 0]), 3);
    assert_eq!(number(&[1, 0x11, 0, 0x12]), 6);
}

#[test]
fn counts_multiply() {
    // REPEAT 3 of a body that spawns one with a clock and two accumulators.
    let table = [3, 7, 3, 1, 0, 5, 2, 0, 0, 2, 0, 8, 0, 0, 8, 1, 0, 1, 0];
    let counts = Table::read(&table).unwrap().counts();
    assert_eq!(counts.activities, 4);
    assert_eq!(counts.clocks, 3);
    assert_eq!(counts.accumulators, 6);
    assert_eq!(counts.work, 1 + 3 * (1 + 6 + 1) + 1);
}

#[test]
fn what_is_under_a_condition_counts_once() {
    // CHOOSE of a body that spawns one with a clock and two accumulators.
    let table = [3, 17, 1, 0, 5, 2, 0, 0, 2, 0, 8, 0, 0, 8, 1, 0, 1, 0];
    let counts = Table::read(&table).unwrap().counts();
    assert_eq!(counts.activities, 2);
    assert_eq!(counts.clocks, 1);
    assert_eq!(counts.accumulators, 2);
    assert_eq!(counts.work, 1 + (1 + 6 + 1) + 1);
}

#[test]
fn a_condition_counts_towards_each_limit() {
    // REPEAT of a body with one CHOOSE of a body with one of each.
    let repeated = |n: u8, command: &[u8]| {
        let mut table = vec![4, 7, n, 1, 0, 17, 2, 0];
        table.extend(command);
        table.extend([0, 0]);
        table
    };
    assert_eq!(number(&repeated(63, &[5, 3, 0])), 0);
    assert_eq!(number(&repeated(64, &[5, 3, 0])), 9);
    assert_eq!(number(&repeated(16, &[2, 0])), 0);
    assert_eq!(number(&repeated(17, &[2, 0])), 10);
    assert_eq!(number(&repeated(16, &[8, 0, 0])), 0);
    assert_eq!(number(&repeated(17, &[8, 0, 0])), 11);
    // The work is 2 and 255 times 256 + n.
    let work = |n: usize| repeated(255, &[&[7, 252, 3], &[13, 0].repeat(n)[..]].concat());
    assert_eq!(count(&work(0)).unwrap().work, 2 + 255 * 256);
    assert_eq!(number(&work(0)), 0);
    assert_eq!(number(&work(1)), 12);
}

#[test]
fn what_is_repeated_0_times_does_not_count() {
    let mut table = vec![2, 7, 0, 1, 0];
    table.extend([2, 0].repeat(17));
    table.push(0);
    let counts = Table::read(&table).unwrap().counts();
    assert_eq!((counts.clocks, counts.work), (0, 2));
}

#[test]
fn huge_counts_are_capped() {
    let mut table = vec![16];
    for body in 1..16 {
        table.extend([7, 255, body, 0]);
    }
    table.push(0);
    assert_eq!(number(&table), 12);
    let mut spawning = vec![16];
    for body in 1..16 {
        spawning.extend([7, 255, body, 7, 255, body, 5, body, 0, 0]);
    }
    spawning.push(0);
    assert_eq!(number(&spawning), 9);
    assert_eq!(count(&spawning).unwrap().activities, u64::MAX);
}

#[test]
fn counts_are_tried_in_order() {
    let seventeen = |command: &[u8]| {
        let mut table = vec![1];
        table.extend(command.repeat(17));
        table.push(0);
        table
    };
    assert_eq!(number(&seventeen(&[2, 0])), 10);
    assert_eq!(number(&seventeen(&[8, 0, 0])), 11);
    assert_eq!(number(&seventeen(&[8, 0, 0, 2, 0])), 10);
}
