//! Lists of commands: the tables that they make, the lists of tables, and both ways round.

use reference::generate::{list_of, random_table, room_of, Rng};
use reference::{build, list};

use crate::machine::{self, Entry};
use crate::tally::Tally;

/// Stands in what is lent before a call, a different byte at each place.
fn marks(length: usize) -> Vec<u8> {
    (0..length).map(|at| (at % 251) as u8 ^ 0xA5).collect()
}

fn marked_entries(count: usize) -> Vec<Entry> {
    marks(5 * count)
        .chunks(5)
        .map(|e| [e[0], e[1], e[2], e[3], e[4]])
        .collect()
}

/// The random things of one index: a list in several buffers, and a table in several lists.
pub fn list_agrees(seed: u64, index: u64, tally: &mut Tally) {
    let mut rng = Rng::new(seed.wrapping_mul(2_000_003).wrapping_add(index));
    let entries = list_of(&mut rng);
    let ample = 1 + 5 * entries.len();
    let mut table = vec![0; ample];
    let (number, length) = build(&entries, &mut table);
    table.truncate(length);
    tally.lists += 1;
    for room in rooms(&mut rng, length).into_iter().chain([ample]) {
        let answer = build_agrees(&entries, room);
        *tally.built.entry(answer).or_default() += 1;
    }
    let other = random_table(&mut rng);
    for table in [&table, &other] {
        let count = list(table, &mut marked_entries(2_048)).1;
        for room in rooms(&mut rng, count) {
            let answer = commands_agree(table, room);
            *tally.listed.entry(answer).or_default() += 1;
        }
        round_agrees(table, count);
    }
    if number == 0 {
        list_comes_back(&entries, &table);
    }
}

/// One short, just enough, one more, and some other room.
fn rooms(rng: &mut Rng, needed: usize) -> [usize; 4] {
    let other = room_of(rng, needed);
    [needed.saturating_sub(1), needed, needed + 1, other]
}

/// Both builders answer alike and leave the same bytes, in a buffer of this length.
fn build_agrees(entries: &[Entry], room: usize) -> u8 {
    let mut found = marks(room);
    let mut expected = found.clone();
    let answer = machine::build(entries, &mut found);
    assert!(
        answer == build(entries, &mut expected) && found == expected,
        "build of {entries:02X?} in {room} bytes"
    );
    answer.0
}

/// Both list alike and leave the same entries, in a list of this length.
fn commands_agree(table: &[u8], room: usize) -> u8 {
    let mut found = marked_entries(room);
    let mut expected = found.clone();
    let answer = machine::commands(table, &mut found);
    assert!(
        answer == list(table, &mut expected) && found == expected,
        "commands of {table:02X?} in {room} entries"
    );
    answer.0
}

/// Building from what is listed of a table that is read yields that table.
fn round_agrees(table: &[u8], count: usize) {
    let mut entries = marked_entries(count);
    let (number, found) = machine::commands(table, &mut entries);
    if number != 0 {
        return;
    }
    let mut again = vec![0; table.len()];
    let built = machine::build(&entries[..found], &mut again);
    assert!(
        built == (0, table.len()) && again == table,
        "{table:02X?} listed and built"
    );
}

/// Listing what is built from a list yields the list, but for the bytes that a command lacks, and these make no byte.
fn list_comes_back(entries: &[Entry], table: &[u8]) {
    let mut found = marked_entries(entries.len());
    assert_eq!(machine::commands(table, &mut found), (0, entries.len()));
    for (new, old) in found.iter().zip(entries) {
        let kept = |k: usize| new[k] == old[k] || new[k] == 0;
        assert!(
            new[0] == old[0] && (1..5).all(kept),
            "the list of {table:02X?}"
        );
    }
    let mut again = vec![0; table.len()];
    let built = machine::build(&found, &mut again);
    assert!(built == (0, table.len()) && again == table);
}
