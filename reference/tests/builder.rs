//! Building tables from lists of commands, and listing the commands of tables.

use reference::generate::{list_of, random_table, room_of, Rng};
use reference::table::Table;
use reference::{build, list};

type Entry = [u8; 5];

const END: &[u8] = &[0];
const NEXT: &[u8] = &[1];
/// What lent buffers hold before a call.
const OLD: u8 = 0xA5;

/// Operand bytes by command byte, from the paper's list of commands.
const OPERANDS: [usize; 18] = [0, 0, 1, 1, 1, 2, 1, 2, 2, 1, 1, 1, 4, 1, 1, 1, 1, 1];

/// An entry with this in the bytes that the command lacks.
fn filled(command: &[u8], filler: u8) -> Entry {
    let mut entry = [filler; 5];
    entry[..command.len()].copy_from_slice(command);
    entry
}

/// The entries of these commands, with 0 in the bytes that they lack.
fn entries(commands: &[&[u8]]) -> Vec<Entry> {
    commands.iter().map(|command| filled(command, 0)).collect()
}

/// The length of a known command, or 1.
fn length(code: u8) -> usize {
    1 + OPERANDS.get(usize::from(code)).copied().unwrap_or(0)
}

/// The bytes of the entries, without byte 0.
fn code(entries: &[Entry]) -> Vec<u8> {
    let command = |entry: &Entry| entry[..length(entry[0])].to_vec();
    entries.iter().flat_map(command).collect()
}

fn ends(entries: &[Entry]) -> usize {
    entries.iter().filter(|entry| entry[0] == 0).count()
}

/// The reader's number of these bytes.
fn read(table: &[u8]) -> u8 {
    Table::read(table).map_or_else(|refusal| refusal.number(), |_| 0)
}

/// What the paper says of a list, given room.
fn wanted(entries: &[Entry]) -> u8 {
    let code = code(entries);
    match (code.len(), ends(entries)) {
        (0 | 2_048.., _) => 1,
        (_, 0 | 17..) => 2,
        (_, ends) => read(&[&[ends as u8], &code[..]].concat()),
    }
}

/// Builds with much room: the number and the table. The rest of the room must stay as it was.
fn built(entries: &[Entry]) -> (u8, Vec<u8>) {
    let mut buffer = vec![OLD; 4_096];
    let (number, length) = build(entries, &mut buffer);
    assert!(buffer[length..].iter().all(|&byte| byte == OLD));
    buffer.truncate(length);
    (number, buffer)
}

/// The number of a list that is turned away, or 0.
fn number(commands: &[&[u8]]) -> u8 {
    let (number, table) = built(&entries(commands));
    assert_eq!(number == 0, !table.is_empty());
    number
}

/// So many of a command, then one END.
fn many(n: usize, command: &[u8]) -> Vec<Entry> {
    let mut list = vec![filled(command, 0); n];
    list.push(filled(END, 0));
    list
}

/// The commands of a table, given room.
fn listed(table: &[u8]) -> Vec<Entry> {
    let mut room = vec![[OLD; 5]; 2_048];
    let (number, length) = list(table, &mut room);
    assert_eq!(number, 0);
    room.truncate(length);
    room
}

#[test]
fn the_papers_table_is_built_from_its_list() {
    let walk: &[&[u8]] = &[&[2, 0], &[5, 1, 1], NEXT, END, NEXT, END];
    let table = vec![2, 2, 0, 5, 1, 1, 1, 0, 1, 0];
    assert_eq!(built(&entries(walk)), (0, table.clone()));
    assert_eq!(listed(&table), entries(walk));
    assert_eq!(built(&entries(&[END])), (0, vec![1, 0]));
}

#[test]
fn every_command_with_its_operands() {
    let all: &[&[u8]] = &[
        NEXT,
        &[2, 7],
        &[3, 7],
        &[4, 7],
        &[5, 1, 0xFF],
        &[6, 1],
        &[7, 2, 1],
        &[8, 7, 2],
        &[9, 7],
        &[10, 7],
        &[11, 7],
        &[12, 0x78, 0x56, 0x34, 0x12],
        &[13, 15],
        &[14, 15],
        &[15, 15],
        &[16, 3],
        &[13, 0],
        &[14, 1],
        &[15, 2],
        &[17, 1],
        END,
        END,
    ];
    let table = [&[2], &all.concat()[..]].concat();
    assert_eq!(built(&entries(all)), (0, table.clone()));
    assert_eq!(listed(&table), entries(all));
}

#[test]
fn put_is_lowest_byte_first() {
    let value = 0x1234_5678u32;
    let put = [&[12], &value.to_le_bytes()[..]].concat();
    assert_eq!(
        built(&entries(&[&put, END])),
        (0, vec![1, 12, 0x78, 0x56, 0x34, 0x12, 0])
    );
}

#[test]
fn number_1_by_length() {
    assert_eq!(number(&[]), 1);
    assert_eq!(built(&many(2_046, NEXT)).0, 0);
    assert_eq!(built(&many(2_046, NEXT)).1.len(), 2_048);
    assert_eq!(built(&many(2_047, NEXT)).0, 1);
    assert_eq!(built(&many(70_000, NEXT)).0, 1);
    // 409 PUT, END and byte 0 are 2,047 bytes.
    let puts = many(409, &[12, 1, 2, 3, 4]);
    let and = |command: &[u8]| [&[filled(command, 0)], &puts[..]].concat();
    assert_eq!(built(&puts).1.len(), 2_047);
    assert_eq!(built(&and(NEXT)).1.len(), 2_048);
    assert_eq!(built(&and(&[13, 0])).0, 1);
}

#[test]
fn number_1_comes_before_the_others() {
    // No END, too many ENDs, no command, operands out of range.
    assert_eq!(built(&vec![filled(NEXT, 0); 2_047]).0, 2);
    assert_eq!(built(&vec![filled(NEXT, 0); 2_048]).0, 1);
    assert_eq!(built(&vec![filled(END, 0); 2_047]).0, 2);
    assert_eq!(built(&vec![filled(END, 0); 2_048]).0, 1);
    assert_eq!(built(&many(2_046, &[0x12])).0, 3);
    assert_eq!(built(&many(2_047, &[0x12])).0, 1);
    assert_eq!(built(&many(1_023, &[2, 8])).0, 5);
    assert_eq!(built(&many(1_024, &[2, 8])).0, 1);
}

#[test]
fn number_2_by_the_number_of_ends() {
    assert_eq!(number(&[NEXT]), 2);
    assert_eq!(number(&[&[2, 9]]), 2);
    assert_eq!(number(&[&[0x12]]), 2);
    let (accepted, table) = built(&[filled(END, 0); 16]);
    assert_eq!((accepted, table[0], table.len()), (0, 16, 17));
    for ends in [17, 18, 255, 256, 257, 272, 300, 512, 513, 1_025, 2_047] {
        assert_eq!(built(&vec![filled(END, 0); ends]).0, 2, "{ends}");
    }
    for ends in [2_048, 2_049, 2_305, 65_536, 65_537] {
        assert_eq!(built(&vec![filled(END, 0); ends]).0, 1, "{ends}");
    }
}

#[test]
fn number_2_comes_before_the_commands() {
    let mut list = entries(&[&[2, 9], &[0x12]]);
    list.extend(vec![filled(END, 0); 17]);
    assert_eq!(built(&list).0, 2);
    list.pop();
    assert_eq!(built(&list).0, 5);
}

#[test]
fn byte_0_follows_the_list() {
    // In the paper 01 01 gives 4 and 01 00 00 gives 8; these lists make 00 01 and 02 00 00.
    assert_eq!(number(&[NEXT]), 2);
    assert_eq!(built(&entries(&[END, END])), (0, vec![2, 0, 0]));
}

#[test]
fn number_3_for_a_first_byte_that_is_no_command() {
    for code in 0x12..=0xFF {
        assert_eq!(number(&[&[code], END]), 3);
        assert_eq!(number(&[END, &[code], END]), 3);
        assert_eq!(number(&[END, &[code]]), 8);
    }
    assert_eq!(number(&[&[0x12], &[2, 9], END]), 3);
    assert_eq!(number(&[&[2, 9], &[0x12], END]), 5);
}

#[test]
fn an_entry_that_is_no_command_makes_one_byte() {
    let mut list = entries(&[END]);
    list.extend(vec![filled(&[0x12], 0); 2_046]);
    assert_eq!(built(&list).0, 8);
    list.push(filled(&[0x12], 0));
    assert_eq!(built(&list).0, 1);
}

#[test]
fn number_5_for_operands_out_of_range() {
    for code in [2, 3, 4, 9, 10, 11] {
        assert_eq!(number(&[&[code, 7], END]), 0);
        assert_eq!(number(&[&[code, 8], END]), 5);
        assert_eq!(number(&[&[code, 255], END]), 5);
    }
    for code in [13, 14, 15] {
        assert_eq!(number(&[&[code, 15], END]), 0);
        assert_eq!(number(&[&[code, 16], END]), 5);
    }
    assert_eq!(number(&[&[8, 8, 0], END]), 5);
    assert_eq!(number(&[&[8, 0, 3], END]), 5);
    assert_eq!(number(&[&[16, 0], END]), 5);
    assert_eq!(number(&[&[16, 9], END]), 5);
    assert_eq!(number(&[END, &[2, 8]]), 8);
}

#[test]
fn number_6_for_bodies_out_of_range() {
    let naming: [&dyn Fn(u8) -> Vec<u8>; 3] =
        [&|b| vec![5, b, 0], &|b| vec![6, b], &|b| vec![7, 1, b]];
    for command in naming {
        assert_eq!(number(&[&command(0), END]), 6);
        assert_eq!(number(&[&command(1), END]), 6);
        assert_eq!(number(&[&command(255), END]), 6);
        assert_eq!(number(&[&command(1), END, END]), 0);
        assert_eq!(number(&[&command(2), END, END]), 6);
        assert_eq!(number(&[END, &command(1), END]), 6);
        assert_eq!(number(&[END, &command(2), END, END]), 0);
    }
    assert_eq!(number(&[&[6, 0], &[2, 9], END]), 6);
    assert_eq!(number(&[&[2, 9], &[6, 0], END]), 5);
}

#[test]
fn number_7_in_an_atom() {
    assert_eq!(number(&[&[16, 1], NEXT, END]), 7);
    assert_eq!(number(&[&[16, 1], &[16, 1], &[13, 0], END]), 7);
    assert_eq!(number(&[&[16, 1], &[12, 0, 0, 0, 0], END]), 7);
    // The command after ATOM is tried for 3 to 6 first.
    assert_eq!(number(&[&[16, 1], &[0x12], END]), 3);
    assert_eq!(number(&[&[16, 1], &[2, 8], END]), 5);
    assert_eq!(number(&[&[16, 1], &[13, 16], END]), 5);
    assert_eq!(number(&[&[16, 1], &[16, 9], END]), 5);
    assert_eq!(number(&[&[16, 1], &[6, 0], END]), 6);
}

#[test]
fn an_atom_with_too_few_commands_takes_the_end() {
    assert_eq!(number(&[&[16, 1], END]), 7);
    assert_eq!(number(&[&[16, 3], &[13, 0], &[14, 1], END]), 7);
    assert_eq!(number(&[&[16, 2], &[13, 0], END, END]), 7);
    assert_eq!(number(&[END, &[16, 2], &[13, 0]]), 8);
    assert_eq!(number(&[&[16, 2], &[13, 0]]), 2);
}

#[test]
fn ends_in_an_atom_count() {
    let mut list = entries(&[&[16, 1]]);
    list.extend(vec![filled(END, 0); 16]);
    assert_eq!(built(&list).0, 7);
    list.push(filled(END, 0));
    assert_eq!(built(&list).0, 2);
}

#[test]
fn number_8_after_the_last_body() {
    assert_eq!(number(&[END, NEXT]), 8);
    assert_eq!(number(&[&[6, 1], END, END, &[12, 0, 0, 0, 0]]), 8);
    assert_eq!(number(&[END, &[6, 0]]), 8);
}

#[test]
fn number_9_above_64_activities() {
    let spawning = |n: u8| number(&[&[7, n, 1], END, &[5, 2, 0], END, END]);
    assert_eq!(spawning(0x3F), 0);
    assert_eq!(spawning(0x40), 9);
}

#[test]
fn number_10_above_16_clocks() {
    let rounds = |n: usize| {
        let mut list = entries(&[&[2, 0], &[4, 0]]).repeat(n);
        list.push(filled(END, 0));
        built(&list).0
    };
    assert_eq!(rounds(16), 0);
    assert_eq!(rounds(17), 10);
}

#[test]
fn number_11_above_16_accumulators() {
    assert_eq!(built(&many(16, &[8, 0, 1])).0, 0);
    assert_eq!(built(&many(17, &[8, 0, 1])).0, 11);
}

#[test]
fn number_12_above_65_535_work() {
    let fetching = |n: usize| {
        let mut list = entries(&[&[7, 255, 1]]);
        list.extend(many(n, &[13, 0]));
        list.extend(entries(&[&[7, 254, 2], END, END]));
        built(&list).0
    };
    assert_eq!(fetching(253), 0);
    assert_eq!(fetching(254), 12);
}

#[test]
fn counts_are_tried_in_order() {
    let both = |one: &[u8], other: &[u8]| {
        let mut list = vec![filled(one, 0); 17];
        list.extend(many(17, other));
        built(&list).0
    };
    assert_eq!(both(&[8, 0, 0], &[2, 0]), 10);
    assert_eq!(both(&[8, 0, 0], &[8, 1, 0]), 11);
}

#[test]
fn number_18_where_the_buffer_is_shorter() {
    let walk = entries(&[&[2, 0], &[5, 1, 1], NEXT, END, NEXT, END]);
    for short in 0..10 {
        let mut buffer = vec![OLD; short];
        assert_eq!(build(&walk, &mut buffer), (18, 0));
        assert_eq!(buffer, vec![OLD; short]);
    }
    for more in 0..4 {
        let mut buffer = vec![OLD; 10 + more];
        assert_eq!(build(&walk, &mut buffer), (0, 10));
        assert_eq!(buffer[..10], [2, 2, 0, 5, 1, 1, 1, 0, 1, 0]);
        assert_eq!(buffer[10..], vec![OLD; more]);
    }
}

#[test]
fn number_18_comes_last() {
    let work = entries(&[&[7, 255, 1], END, &[7, 255, 2], END, &[7, 255, 3], END, END]);
    let refused: [(u8, Vec<Entry>); 7] = [
        (1, vec![]),
        (2, entries(&[NEXT])),
        (3, entries(&[&[0x12], END])),
        (5, entries(&[&[2, 8], END])),
        (8, entries(&[END, NEXT])),
        (11, many(17, &[8, 0, 0])),
        (12, work),
    ];
    for (number, list) in refused {
        assert_eq!(build(&list, &mut []), (number, 0));
        assert_eq!(built(&list), (number, vec![]));
    }
    assert_eq!(build(&entries(&[END]), &mut []), (18, 0));
}

#[test]
fn bytes_that_a_command_lacks_are_not_looked_at() {
    let list = [
        filled(NEXT, 0),
        filled(&[2, 3], 0),
        filled(&[5, 1, 8], 0),
        filled(&[16, 1], 0),
        filled(&[15, 2], 0),
        filled(END, 0),
        filled(END, 0),
    ];
    let table = built(&list).1;
    for filler in 0..=255 {
        let scribbled = list.map(|entry| filled(&entry[..length(entry[0])], filler));
        assert_eq!(built(&scribbled), (0, table.clone()));
    }
    assert_eq!(built(&[filled(&[0x12], 9), filled(END, 9)]).0, 3);
    assert_eq!(built(&[filled(END, 9), filled(&[0x12], 9)]).0, 8);
    assert_eq!(listed(&table), list);
}

#[test]
fn list_answers_as_the_reader() {
    let refused: [(u8, &[u8]); 9] = [
        (1, &[]),
        (1, &[1]),
        (2, &[0, 0]),
        (3, &[1, 0x12]),
        (4, &[1, 1]),
        (5, &[1, 2, 8, 0]),
        (6, &[1, 6, 0, 0]),
        (7, &[1, 16, 1, 1, 0]),
        (8, &[1, 0, 0]),
    ];
    for (number, table) in refused {
        for room in [0, 1, 9] {
            let mut lent = vec![[OLD; 5]; room];
            assert_eq!(list(table, &mut lent), (number, 0), "{table:02X?}");
            assert_eq!(lent, vec![[OLD; 5]; room]);
        }
    }
}

#[test]
fn list_needs_an_entry_for_each_command() {
    let table = [1, 16, 2, 13, 4, 15, 5, 12, 1, 2, 3, 4, 0];
    let all = entries(&[&[16, 2], &[13, 4], &[15, 5], &[12, 1, 2, 3, 4], END]);
    for short in 0..5 {
        let mut lent = vec![[OLD; 5]; short];
        assert_eq!(list(&table, &mut lent), (18, 0));
        assert_eq!(lent, vec![[OLD; 5]; short]);
    }
    for more in 0..3 {
        let mut lent = vec![[OLD; 5]; 5 + more];
        assert_eq!(list(&table, &mut lent), (0, 5));
        assert_eq!(lent[..5], all);
        assert_eq!(lent[5..], vec![[OLD; 5]; more]);
    }
}

#[test]
fn a_random_list_is_accepted_where_the_reader_accepts_its_bytes() {
    for seed in 0..4_000 {
        let mut rng = Rng::new(seed);
        let entries = list_of(&mut rng);
        let bytes = [&[ends(&entries) as u8], &code(&entries)[..]].concat();
        let room = room_of(&mut rng, bytes.len());
        let mut buffer: Vec<u8> = (0..room).map(|_| rng.byte()).collect();
        let before = buffer.clone();
        let answer = build(&entries, &mut buffer);
        match wanted(&entries) {
            0 if room < bytes.len() => assert_eq!(answer, (18, 0)),
            0 => assert_eq!(answer, (0, bytes.len())),
            number => assert_eq!(answer, (number, 0), "{entries:02X?}"),
        }
        assert_eq!(buffer[..answer.1], bytes[..answer.1]);
        assert_eq!(buffer[answer.1..], before[answer.1..]);
    }
}

#[test]
fn listing_a_built_table_gives_the_list() {
    for seed in 0..4_000 {
        let given = list_of(&mut Rng::new(seed));
        let (0, table) = built(&given) else {
            continue;
        };
        let clean = |entry: &Entry| filled(&entry[..length(entry[0])], 0);
        let clean: Vec<Entry> = given.iter().map(clean).collect();
        assert_eq!(listed(&table), clean);
        assert_eq!(built(&clean), (0, table));
    }
}

#[test]
fn building_from_the_list_of_a_table_gives_the_table() {
    for seed in 0..4_000 {
        let mut rng = Rng::new(seed);
        let table = random_table(&mut rng);
        let mut lent = vec![[OLD; 5]; 2_048];
        let (number, length) = list(&table, &mut lent);
        assert_eq!(number, read(&table));
        assert_eq!(lent[length..], vec![[OLD; 5]; 2_048 - length]);
        if number == 0 {
            assert_eq!(built(&lent[..length]), (0, table.clone()));
            let mut short = vec![[OLD; 5]; room_of(&mut rng, length)];
            let room = short.len();
            let wanted = if room < length { (18, 0) } else { (0, length) };
            assert_eq!(list(&table, &mut short), wanted);
            assert_eq!(short[..wanted.1], lent[..wanted.1]);
            assert_eq!(short[wanted.1..], vec![[OLD; 5]; room - wanted.1]);
        }
    }
}

/// A list has whole commands, and each of its ENDs ends a body unless an ATOM takes it (7).
#[test]
fn no_list_is_cut() {
    for seed in 0..4_000 {
        assert_ne!(built(&list_of(&mut Rng::new(seed))).0, 4);
    }
    // All lists of up to five of these: ATOM 1, ATOM 2, FETCH, END, NEXT, no command.
    let commands: [&[u8]; 6] = [&[16, 1], &[16, 2], &[13, 0], END, NEXT, &[0x12]];
    for index in 0..6usize.pow(5) {
        let picked = |place| commands[index / 6usize.pow(place) % 6];
        for length in 0..=5 {
            let list: Vec<&[u8]> = (0..length).map(picked).collect();
            assert_eq!(built(&entries(&list)).0, wanted(&entries(&list)));
            assert_ne!(number(&list), 4);
        }
    }
}
