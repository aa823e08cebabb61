//! Random tables.

use super::author::Author;
use super::codes::ATOM;
use super::limits::limit_table;
use super::rng::Rng;
use crate::table::Table;

/// A table of any kind; most are accepted.
pub fn random_table(rng: &mut Rng) -> Vec<u8> {
    match rng.below(1000) {
        0..=639 => program_table(rng),
        640..=789 => {
            let fault = rng.between(1, 7) as u8;
            fault_table(rng, fault)
        }
        790..=829 => fault_table(rng, 8),
        830..=889 => limit_table(rng),
        890..=979 => damaged_table(rng),
        _ => noise_table(rng),
    }
}

/// A table of a meaningful job; nearly always accepted.
pub fn program_table(rng: &mut Rng) -> Vec<u8> {
    let slips = rng.pick(&[0, 0, 0, 2, 6]);
    accepted_if_possible(rng, |rng| Author::new(rng, slips).write_table(None))
}

/// A table with code that leads some activity into the fault F1 to F8, unless it ends before.
pub fn fault_table(rng: &mut Rng, fault: u8) -> Vec<u8> {
    accepted_if_possible(rng, |rng| Author::new(rng, 0).write_table(Some(fault)))
}

/// A few bytes of a meaningful table are changed, inserted or deleted.
pub fn damaged_table(rng: &mut Rng) -> Vec<u8> {
    let mut table = program_table(rng);
    for _ in 0..rng.between(1, 3) {
        damage_table(rng, &mut table);
    }
    table
}

/// Bytes without meaning, most of them command bytes.
pub fn noise_table(rng: &mut Rng) -> Vec<u8> {
    let length = rng.below(24);
    let mut table: Vec<u8> = (0..length).map(|_| noise_byte(rng)).collect();
    if let Some(bodies) = table.first_mut() {
        *bodies = rng.pick(&[0, 1, 1, 1, 2, 2, 3, 16, 17, 255]);
    }
    table
}

fn noise_byte(rng: &mut Rng) -> u8 {
    match rng.below(10) {
        0 => rng.byte(),
        1..=3 => rng.below(4) as u8,
        _ => rng.below(0x13) as u8,
    }
}

fn damage_table(rng: &mut Rng, table: &mut Vec<u8>) {
    let byte = noise_byte(rng);
    if table.is_empty() {
        table.push(byte);
        return;
    }
    let at = rng.below(table.len());
    match rng.below(7) {
        0..=2 => table[at] = byte,
        3 => table.insert(at, byte),
        4 => {
            table.remove(at);
        }
        5 => table.truncate(at),
        _ => damage_atom(rng, table),
    }
}

/// Changes the first of the commands after what may be an ATOM.
fn damage_atom(rng: &mut Rng, table: &mut [u8]) {
    let atoms: Vec<usize> = (2..table.len())
        .filter(|&at| table[at - 2] == ATOM)
        .collect();
    if let Some(at) = rng.choose(&atoms) {
        table[at] = rng.below(0x13) as u8;
    }
}

/// Tries again a few times while tables are refused.
fn accepted_if_possible(rng: &mut Rng, write: impl Fn(&mut Rng) -> Vec<u8>) -> Vec<u8> {
    let mut table = write(rng);
    for _ in 0..8 {
        if Table::read(&table).is_ok() {
            break;
        }
        table = write(rng);
    }
    table
}
