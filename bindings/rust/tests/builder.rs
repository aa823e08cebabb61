// What the builder's calls answer and leave: the table of a list of commands, and the list of a table.
#![forbid(unsafe_code)]

use stepmachine::{build, commands, start, step, Entry};

// Document 01's printed table, and its commands.
const TABLE: [u8; 10] = [0x02, 0x02, 0x00, 0x05, 0x01, 0x01, 0x01, 0x00, 0x01, 0x00];
const LIST: [Entry; 6] = [[0x02, 0, 0, 0, 0], [0x05, 1, 1, 0, 0], NEXT, END, NEXT, END];

const END: Entry = [0x00, 0, 0, 0, 0];
const NEXT: Entry = [0x01, 0, 0, 0, 0];

// A byte that is no command.
const NONE: Entry = [0xFF, 0, 0, 0, 0];

// An entry of one operand, and one of two.
fn one(command: u8, operand: u8) -> Entry {
    [command, operand, 0, 0, 0]
}

fn two(command: u8, first: u8, second: u8) -> Entry {
    [command, first, second, 0, 0]
}

// So many of an entry, and an END.
fn ended(entry: Entry, count: usize) -> Vec<Entry> {
    let mut list = vec![entry; count];
    list.push(END);
    list
}

// A list is refused, and every byte of the buffer is left.
fn refused(list: &[Entry], room: usize, number: u8) {
    let mut table = vec![0xA5; room];
    assert_eq!(build(list, &mut table), Err(number), "{list:02X?}");
    assert!(table.iter().all(|&byte| byte == 0xA5));
}

// A table is refused, and every entry is left.
fn unlisted(table: &[u8], room: usize, number: u8) {
    let mut list = vec![[0x5A; 5]; room];
    assert_eq!(commands(table, &mut list), Err(number), "{table:02X?}");
    assert!(list.iter().all(|&entry| entry == [0x5A; 5]));
}

// A list and a table make each other, in every room that is enough and in none that is not; what lies past them is left.
fn both(list: &[Entry], table: &[u8]) {
    for room in 0..table.len() {
        refused(list, room, 18);
    }
    for spare in 0..3 {
        let mut built = vec![0xA5; table.len() + spare];
        assert_eq!(build(list, &mut built), Ok(table.len()));
        assert_eq!(built, [table, &vec![0xA5; spare]].concat());
    }
    for room in 0..list.len() {
        unlisted(table, room, 18);
    }
    for spare in 0..3 {
        let mut found = vec![[0x5A; 5]; list.len() + spare];
        assert_eq!(commands(table, &mut found), Ok(list.len()));
        assert_eq!(found, [list, &vec![[0x5A; 5]; spare]].concat());
    }
}

#[test]
fn a_list_and_its_table_make_each_other() {
    both(&LIST, &TABLE);
    both(&[END], &[0x01, 0x00]);
    both(&[END; 16], &[&[16][..], &[0x00; 16]].concat());
}

#[test]
fn an_entry_has_its_operands_as_they_stand_in_a_table() {
    both(&[[0x0C, 0x78, 0x56, 0x34, 0x12], END], &[0x01, 0x0C, 0x78, 0x56, 0x34, 0x12, 0x00]);
    both(&[one(0x11, 1), END, END], &[0x02, 0x11, 0x01, 0x00, 0x00]);
    both(&[two(0x07, 3, 1), END, two(0x08, 7, 2), END], &[0x02, 0x07, 0x03, 0x01, 0x00, 0x08, 0x07, 0x02, 0x00]);
}

#[test]
fn the_commands_of_an_atom_are_entries_after_it() {
    let list = [one(0x10, 3), one(0x0D, 1), one(0x0F, 2), one(0x0E, 15), NEXT, END];
    both(&list, &[0x01, 0x10, 0x03, 0x0D, 0x01, 0x0F, 0x02, 0x0E, 0x0F, 0x01, 0x00]);
}

#[test]
fn bytes_that_a_command_lacks_are_not_looked_at() {
    let list = [[0x02, 0, 1, 2, 3], [0x05, 1, 1, 0xFF, 0], [0x01; 5], [0x00, 9, 9, 9, 9], [0x01, 0, 0, 0, 1], [0x00, 0xFF, 0, 0, 0]];
    let mut table = [0xA5; 10];
    assert_eq!(build(&list, &mut table), Ok(10));
    assert_eq!(table, TABLE);
    let mut found = [[0x5A; 5]; 6];
    assert_eq!(commands(&table, &mut found), Ok(6));
    assert_eq!(found, LIST);
}

// Number 4 is missing: no list makes a cut table.
#[test]
fn a_list_is_refused_as_its_table() {
    let rows: [(u8, &[Entry]); 18] = [
        (1, &[]),
        (2, &[NEXT]),
        (3, &[one(0x12, 0), END]),
        (3, &[NONE, END]),
        (5, &[one(0x02, 8), END]),
        (5, &[two(0x08, 0, 3), END]),
        (5, &[one(0x10, 0), END]),
        (6, &[one(0x06, 0), END]),
        (6, &[one(0x11, 1), END]),
        (6, &[END, two(0x05, 1, 0), END]),
        (7, &[one(0x10, 1), NEXT, END]),
        (7, &[one(0x10, 2), one(0x0D, 0), END]),
        (8, &[END, NEXT]),
        (8, &[END, NONE]),
        (9, &[two(0x07, 0x40, 1), END, two(0x05, 2, 0), END, END]),
        (10, &[two(0x07, 17, 1), END, one(0x02, 0), one(0x04, 0), END]),
        (11, &[two(0x07, 17, 1), END, two(0x08, 0, 0), END]),
        (12, &[two(0x07, 255, 1), END, two(0x07, 255, 2), END, END]),
    ];
    for (number, list) in rows {
        refused(list, 2048, number);
        refused(list, 0, number);
    }
}

#[test]
fn a_table_is_refused_before_its_room() {
    let rows: [(u8, &[u8]); 6] = [
        (1, &[]),
        (2, &[0x11, 0x00]),
        (3, &[0x01, 0xFF]),
        (4, &[0x01, 0x01]),
        (5, &[0x01, 0x02, 0x08, 0x00]),
        (8, &[0x01, 0x00, 0x00]),
    ];
    for (number, table) in rows {
        unlisted(table, 2047, number);
        unlisted(table, 0, number);
    }
}

// Also where a byte does not hold their number.
#[test]
fn more_than_sixteen_ends_give_2() {
    for count in [17, 255, 256, 257, 272, 300, 2047] {
        refused(&vec![END; count], 2048, 2);
    }
    refused(&vec![END; 2048], 2048, 1);
}

// A byte that is no command is one byte of the length.
#[test]
fn a_table_has_at_most_2048_bytes() {
    let mut longest = [0x01; 2048];
    longest[2047] = 0x00;
    both(&ended(NEXT, 2046), &longest);
    refused(&ended(NEXT, 2047), 2048, 1);
    refused(&ended(NEXT, 65536), 2048, 1);
    refused(&ended(NONE, 2046), 2048, 3);
    refused(&ended(NONE, 2047), 2048, 1);
    refused(&ended([0x0C; 5], 410), 2048, 1);
    assert_eq!(build(&ended([0x0C; 5], 409), &mut [0; 2048]), Ok(2047));
}

#[test]
fn what_one_call_wrote_serves_the_other() {
    let mut table = [0; 2048];
    let mut list = [[0; 5]; 2047];
    let length = build(&LIST, &mut table).unwrap();
    let found = commands(&table[..length], &mut list).unwrap();
    assert_eq!(list[..found], LIST);
    let mut again = [0xA5; 2048];
    assert_eq!(build(&list[..found], &mut again), Ok(length));
    assert_eq!(again[..length], table[..length]);
}

#[test]
fn a_table_that_was_built_is_started_and_stepped() {
    let mut buffer = [0; 2048];
    let length = build(&LIST, &mut buffer).unwrap();
    let table = &buffer[..length];
    let mut state = [0; 13776];
    assert_eq!(start(table, &mut state), 0);
    for (activity, answer) in [(0, 0), (0, 0), (0, 0), (0, 16), (1, 0), (0, 0), (0, 0), (1, 0), (1, 0), (0, 15)] {
        assert_eq!(step(table, &mut state, activity), answer);
    }
}

// The ATOM stores PUT's value, lowest byte first, and adds it again.
#[test]
fn a_value_and_an_atom_that_were_built_take_their_steps() {
    let list = [[0x0C, 0x01, 0x02, 0x03, 0x04], one(0x10, 2), one(0x0E, 3), one(0x0F, 3), END];
    let mut table = [0; 13];
    assert_eq!(build(&list, &mut table), Ok(13));
    let mut state = [0; 13776];
    assert_eq!(start(&table, &mut state), 0);
    for answer in [0, 0, 0, 15] {
        assert_eq!(step(&table, &mut state, 0), answer);
    }
    assert_eq!(state[16 + 4 * 3..][..4], [0x02, 0x04, 0x06, 0x08]);
}
