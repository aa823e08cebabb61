//! Nanoseconds a call of the builder and of the lister beside the second interpreter's.
use crate::jobs::Job;
use crate::lent;
use crate::machine::{self, Entry};
use crate::measure::Pace;

/// A table of so many bytes built from its list, and listed.
pub fn paces(bytes: usize) -> [(&'static str, Pace); 2] {
    let table = Job::new(8, bytes).table;
    let mut entries = vec![[0; 5]; bytes];
    let (number, count) = reference::list(&table, &mut entries);
    assert_eq!(number, 0);
    entries.truncate(count);
    let room = vec![0u8; bytes];
    let build = lent::pace(&room, (0, bytes), |room| machine::build(&entries, room), |room| reference::build(&entries, room));
    let room: Vec<Entry> = vec![[0; 5]; count];
    let list = lent::pace(&room, (0, count), |room| machine::commands(&table, room), |room| reference::list(&table, room));
    [("build", build), ("commands", list)]
}
