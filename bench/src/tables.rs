//! Nanoseconds a call of the reader of tables beside the second interpreter's.
use crate::jobs::Job;
use crate::lent;
use crate::machine;
use crate::measure::Pace;
use reference::Table;

/// Work, activities, clocks and accumulators.
const COUNTS: usize = 4;

/// The number of a table, and its counts as the machine writes them.
fn read(table: &[u8], counts: &mut [u64]) -> u8 {
    let (number, found) = match Table::read(table) {
        Ok(table) => (0, table.counts()),
        Err(refusal) => (refusal.number(), Default::default()),
    };
    counts.copy_from_slice(&[found.work, found.activities, found.clocks, found.accumulators]);
    number
}

/// A table of so many bytes read and counted: numbers 1 to 12.
pub fn pace(bytes: usize) -> Pace {
    let table = Job::new(8, bytes).table;
    lent::pace(&[0; COUNTS], 0, |counts| machine::read(&table, counts), |counts| read(&table, counts))
}
