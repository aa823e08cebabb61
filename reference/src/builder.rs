//! Tables from lists of commands, and back: numbers 1 to 12 and 18.
//!
//! An entry of a list is five bytes: the command byte, the operands as they stand in a table,
//! then the bytes that the command lacks. The k commands of an ATOM are entries of their own.

use crate::answer::Refusal;
use crate::table::{operand_bytes, Table};

/// Builds the table of a list in a lent buffer: its number and the table's length.
///
/// Numbers 1 to 12 are those of the bytes that the list makes; then 18, the buffer is shorter.
/// The buffer past the table keeps its contents, and all of it does where the list is refused.
/// No list gives 4: its commands are whole, and each END ends a body or gives 7 in an ATOM.
pub fn build(entries: &[[u8; 5]], table: &mut [u8]) -> (u8, usize) {
    let bytes = table_of(entries);
    answer(Table::read(&bytes).and_then(|_| fill(table, &bytes)))
}

/// Lists the commands of a table in lent entries: its number and how many commands there are.
///
/// Numbers 1 to 12 are those of the table; then 18, there are fewer entries than commands.
/// The bytes that a command lacks become 0. Entries past the last command keep their contents,
/// and all of them do where the table is refused.
pub fn list(table: &[u8], entries: &mut [[u8; 5]]) -> (u8, usize) {
    answer(Table::read(table).and_then(|_| fill(entries, &entries_of(&table[1..]))))
}

/// The number and the length; 0 where refused.
fn answer(filled: Result<usize, Refusal>) -> (u8, usize) {
    match filled {
        Ok(length) => (0, length),
        Err(refusal) => (refusal.number(), 0),
    }
}

/// Number 18, or the front of the lent slice becomes what was made.
fn fill<T: Copy>(lent: &mut [T], made: &[T]) -> Result<usize, Refusal> {
    let front = lent.get_mut(..made.len()).ok_or(Refusal::ShortBuffer)?;
    front.copy_from_slice(made);
    Ok(made.len())
}

/// The bytes that a list makes: the number of its ENDs, then the bytes of each entry.
fn table_of(entries: &[[u8; 5]]) -> Vec<u8> {
    let mut bytes = vec![body_count(entries)];
    for entry in entries {
        bytes.extend(&entry[..entry_length(entry[0])]);
    }
    bytes
}

/// The number of ENDs. Those above 255 count as 255, which is above 16 too.
fn body_count(entries: &[[u8; 5]]) -> u8 {
    let ends = entries.iter().filter(|entry| entry[0] == 0).count();
    u8::try_from(ends).unwrap_or(u8::MAX)
}

/// The bytes that an entry makes: one where its first byte is no command.
pub(crate) fn entry_length(code: u8) -> usize {
    1 + operand_bytes(code).unwrap_or(0)
}

/// The entries of the commands in these bytes. A command that is cut is filled up with 0.
pub(crate) fn entries_of(mut commands: &[u8]) -> Vec<[u8; 5]> {
    let mut entries = Vec::new();
    while let Some(&code) = commands.first() {
        let (command, rest) = commands.split_at(entry_length(code).min(commands.len()));
        let mut entry = [0; 5];
        entry[..command.len()].copy_from_slice(command);
        entries.push(entry);
        commands = rest;
    }
    entries
}
