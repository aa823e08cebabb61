//! Random lists of commands.

use super::codes::*;
use super::limits::limit_table;
use super::rng::Rng;
use super::tables::random_table;
use crate::builder::{entries_of, entry_length, list};
use crate::table::MAX_TABLE;

type Entry = [u8; 5];

/// A list of any kind; more than half are accepted. In most, the bytes that commands lack are random.
pub fn list_of(rng: &mut Rng) -> Vec<Entry> {
    let mut entries = match rng.below(100) {
        0..=34 => accepted_list(rng),
        35..=46 => limit_list(rng),
        47..=75 => damaged_list(rng),
        76..=87 => random_list(rng),
        88..=92 => noise_list(rng),
        93..=98 => long_list(rng),
        _ => Vec::new(),
    };
    if rng.chance(60) {
        for entry in &mut entries {
            scribble(rng, entry);
        }
    }
    entries
}

/// How much room to lend where so much is needed: too little, just enough or more.
pub fn room_of(rng: &mut Rng, needed: usize) -> usize {
    match rng.below(8) {
        0 => 0,
        1 => rng.below(needed + 1),
        2 | 3 => needed.saturating_sub(1),
        4 => needed,
        5 => needed + 1,
        6 => needed + rng.below(40),
        _ => needed.max(MAX_TABLE) + rng.below(3),
    }
}

/// The list of an accepted table.
fn accepted_list(rng: &mut Rng) -> Vec<Entry> {
    let mut entries = vec![[0; 5]; MAX_TABLE];
    loop {
        let table = random_table(rng);
        if let (0, length) = list(&table, &mut entries) {
            entries.truncate(length);
            return entries;
        }
    }
}

/// The list of a table at a limit, which may be over it.
fn limit_list(rng: &mut Rng) -> Vec<Entry> {
    let table = limit_table(rng);
    entries_of(table.get(1..).unwrap_or(&[]))
}

/// Bodies of commands, most often all with operands in range.
fn random_list(rng: &mut Rng) -> Vec<Entry> {
    let bodies = rng.pick(&[1, 1, 2, 2, 3, 4, 6, 9, 15, 16, 17]);
    let slips = rng.pick(&[0, 0, 0, 4]);
    let most = rng.pick(&[2, 4, 8]);
    let mut entries = Vec::new();
    for body in 0..bodies {
        for _ in 0..rng.below(most) {
            if rng.chance(slips) {
                entries.push(noise_entry(rng));
            } else {
                push_command(rng, body, bodies, &mut entries);
            }
        }
        entries.push([END, 0, 0, 0, 0]);
    }
    entries
}

/// A command with operands in range for this body; an ATOM has its commands after it.
fn push_command(rng: &mut Rng, body: u8, bodies: u8, entries: &mut Vec<Entry>) {
    let name = rng.below(8) as u8;
    let cell = rng.below(16) as u8;
    let code = rng.between(1, 0x11) as u8;
    let later: Vec<u8> = (body + 1..bodies).collect();
    let b = rng.choose(&later);
    entries.push(match (code, b) {
        (CLOCK | RESUME | DROP | OFFER | READ | RESET, _) => [code, name, 0, 0, 0],
        (ASYNC, Some(b)) => [code, b, rng.byte(), 0, 0],
        (FINISH | CHOOSE, Some(b)) => [code, b, 0, 0, 0],
        (REPEAT, Some(b)) => [code, rng.low(3, 256) as u8, b, 0, 0],
        (ACC, _) => [code, name, rng.below(3) as u8, 0, 0],
        (PUT, _) => [code, rng.byte(), rng.byte(), rng.byte(), rng.byte()],
        (FETCH | STORE | ADD, _) => [code, cell, 0, 0, 0],
        (ATOM, _) => return push_atom(rng, entries),
        _ => [NEXT, 0, 0, 0, 0],
    });
}

fn push_atom(rng: &mut Rng, entries: &mut Vec<Entry>) {
    let k = rng.between(1, 8);
    entries.push([ATOM, k as u8, 0, 0, 0]);
    for _ in 0..k {
        let code = rng.pick(&[FETCH, STORE, ADD]);
        entries.push([code, rng.below(16) as u8, 0, 0, 0]);
    }
}

/// Entries without meaning, most of them commands.
fn noise_list(rng: &mut Rng) -> Vec<Entry> {
    let length = rng.below(12);
    let mut entries: Vec<Entry> = (0..length).map(|_| noise_entry(rng)).collect();
    if rng.chance(50) {
        entries.push([END, 0, 0, 0, 0]);
    }
    entries
}

fn noise_entry(rng: &mut Rng) -> Entry {
    let code = match rng.below(10) {
        0 => rng.byte(),
        1 => END,
        _ => rng.below(0x13) as u8,
    };
    let mut entry = [code; 5];
    for byte in &mut entry[1..] {
        *byte = match rng.below(4) {
            0 => rng.byte(),
            1 => rng.below(18) as u8,
            _ => rng.below(3) as u8,
        };
    }
    entry
}

/// More ENDs than 16 or than 255, or more than 2,048 bytes.
fn long_list(rng: &mut Rng) -> Vec<Entry> {
    let mut entries = match rng.below(3) {
        0 => many_ends(rng),
        1 => many_bytes(rng),
        _ => many_bodies(rng),
    };
    if rng.chance(30) {
        damage(rng, &mut entries);
    }
    entries
}

/// Numbers of ENDs near 16, near multiples of 256 and near 2,048, with a few other commands.
fn many_ends(rng: &mut Rng) -> Vec<Entry> {
    let near = rng.pick(&[16, 32, 255, 256, 272, 300, 512, 768, 2_047, 2_304, 65_536]);
    let ends = near + rng.below(3);
    let mut entries = vec![[END, 0, 0, 0, 0]; ends];
    for _ in 0..rng.pick(&[0, 0, 1, 5]) {
        let at = rng.below(entries.len());
        entries.insert(at, noise_entry(rng));
    }
    entries
}

/// One body of 2,040 to 2,060 bytes, or of far more.
fn many_bytes(rng: &mut Rng) -> Vec<Entry> {
    let length = rng.pick(&[2_040, 2_040, 4_000, 70_000]) + rng.below(21);
    let mut entries = Vec::new();
    let mut bytes = 2;
    while bytes < length {
        let code = rng.pick(&[NEXT, FETCH, ADD, PUT]);
        entries.push([code, rng.below(16) as u8, rng.byte(), rng.byte(), 0]);
        bytes += entry_length(code);
    }
    entries.push([END, 0, 0, 0, 0]);
    entries
}

/// Hundreds of commands in many bodies.
fn many_bodies(rng: &mut Rng) -> Vec<Entry> {
    let mut entries = Vec::new();
    while entries.len() < 400 {
        entries.extend(random_list(rng));
    }
    entries
}

/// An accepted list with a few damages.
fn damaged_list(rng: &mut Rng) -> Vec<Entry> {
    let mut entries = accepted_list(rng);
    for _ in 0..rng.pick(&[1, 1, 2, 3]) {
        damage(rng, &mut entries);
    }
    entries
}

/// Damages that may change how many entries there are.
const RESHAPES: &[fn(&mut Rng, &mut Vec<Entry>)] = &[
    drop_entry,
    double_entry,
    insert_entry,
    append_entry,
    add_end,
    remove_end,
    add_noise_code,
    change_atom,
];

/// Damages that leave their number as it is.
const CHANGES: &[fn(&mut Rng, &mut [Entry])] = &[
    swap_entries,
    change_byte,
    change_operand,
    change_filler,
    operand_out_of_range,
    change_body,
];

fn damage(rng: &mut Rng, entries: &mut Vec<Entry>) {
    if entries.is_empty() {
        return;
    }
    if rng.chance(55) {
        rng.pick(RESHAPES)(rng, entries);
    } else {
        rng.pick(CHANGES)(rng, entries);
    }
}

/// The index of an entry that satisfies the test.
fn find(rng: &mut Rng, entries: &[Entry], test: impl Fn(&Entry) -> bool) -> Option<usize> {
    let found: Vec<usize> = (0..entries.len()).filter(|&i| test(&entries[i])).collect();
    rng.choose(&found)
}

fn drop_entry(rng: &mut Rng, entries: &mut Vec<Entry>) {
    entries.remove(rng.below(entries.len()));
}

fn double_entry(rng: &mut Rng, entries: &mut Vec<Entry>) {
    let at = rng.below(entries.len());
    entries.insert(at, entries[at]);
}

fn swap_entries(rng: &mut Rng, entries: &mut [Entry]) {
    let one = rng.below(entries.len());
    let other = match rng.below(2) {
        0 => (one + 1) % entries.len(),
        _ => rng.below(entries.len()),
    };
    entries.swap(one, other);
}

fn insert_entry(rng: &mut Rng, entries: &mut Vec<Entry>) {
    let at = rng.below(entries.len() + 1);
    entries.insert(at, noise_entry(rng));
}

fn append_entry(rng: &mut Rng, entries: &mut Vec<Entry>) {
    entries.push(noise_entry(rng));
}

fn change_byte(rng: &mut Rng, entries: &mut [Entry]) {
    let at = rng.below(entries.len());
    entries[at][rng.below(5)] = rng.byte();
}

fn change_operand(rng: &mut Rng, entries: &mut [Entry]) {
    if let Some(at) = find(rng, entries, |entry| entry_length(entry[0]) > 1) {
        let operand = rng.between(1, entry_length(entries[at][0]) - 1);
        entries[at][operand] = rng.below(18) as u8;
    }
}

fn change_filler(rng: &mut Rng, entries: &mut [Entry]) {
    let at = rng.below(entries.len());
    scribble(rng, &mut entries[at]);
}

/// Changes the bytes that the command lacks.
fn scribble(rng: &mut Rng, entry: &mut Entry) {
    let length = entry_length(entry[0]);
    for byte in &mut entry[length..] {
        *byte = rng.byte();
    }
}

fn add_end(rng: &mut Rng, entries: &mut Vec<Entry>) {
    let at = match rng.below(2) {
        0 => entries.len(),
        _ => rng.below(entries.len() + 1),
    };
    entries.insert(at, [END, 0, 0, 0, 0]);
}

fn remove_end(rng: &mut Rng, entries: &mut Vec<Entry>) {
    if let Some(at) = find(rng, entries, |entry| entry[0] == END) {
        entries.remove(at);
    }
}

/// A first byte that is no command, in place of one or at the end.
fn add_noise_code(rng: &mut Rng, entries: &mut Vec<Entry>) {
    let code = match rng.below(2) {
        0 => 0x12,
        _ => rng.between(0x12, 0xFF) as u8,
    };
    if rng.chance(70) {
        let at = rng.below(entries.len());
        entries[at][0] = code;
    } else {
        entries.push([code, 0, 0, 0, 0]);
    }
}

/// A c, a, o, d or k that is too great, or k 0.
fn operand_out_of_range(rng: &mut Rng, entries: &mut [Entry]) {
    let ranged = |entry: &Entry| matches!(entry[0], CLOCK..=DROP | ACC..=RESET | FETCH..=ATOM);
    let Some(at) = find(rng, entries, ranged) else {
        return;
    };
    let (operand, limit) = match entries[at][0] {
        ATOM => (1, 9),
        FETCH..=ADD => (1, 16),
        ACC if rng.chance(50) => (2, 3),
        _ => (1, 8),
    };
    entries[at][operand] = match rng.below(3) {
        0 => limit,
        1 if entries[at][0] == ATOM => 0,
        _ => rng.between(usize::from(limit), 255) as u8,
    };
}

/// A b that is too low, too great, or another one in range.
fn change_body(rng: &mut Rng, entries: &mut [Entry]) {
    let names_body = |entry: &Entry| matches!(entry[0], ASYNC | FINISH | REPEAT | CHOOSE);
    let Some(at) = find(rng, entries, names_body) else {
        return;
    };
    let bodies = entries.iter().filter(|entry| entry[0] == END).count();
    let operand = if entries[at][0] == REPEAT { 2 } else { 1 };
    entries[at][operand] = match rng.below(4) {
        0 => 0,
        1 => bodies as u8,
        2 => rng.below(bodies + 1) as u8,
        _ => rng.byte(),
    };
}

/// Changes one of the commands after an ATOM, or k.
fn change_atom(rng: &mut Rng, entries: &mut Vec<Entry>) {
    let Some(at) = find(rng, entries, |entry| entry[0] == ATOM) else {
        return;
    };
    let k = usize::from(entries[at][1]);
    let inside = at + rng.between(1, k.max(1));
    match rng.below(5) {
        0 => entries[at][1] = rng.between(1, 8) as u8,
        1 => entries.insert(inside.min(entries.len()), [END, 0, 0, 0, 0]),
        _ if inside < entries.len() => entries[inside] = noise_entry(rng),
        _ => {}
    }
}
