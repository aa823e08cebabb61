//! Work shared out to all cores.

use std::sync::atomic::{AtomicU64, Ordering};
use std::thread;

use crate::tally::Tally;

/// Does the work of each index below the count; each core takes the next one that is left.
pub fn share(count: u64, work: impl Fn(u64, &mut Tally) + Sync) -> Tally {
    let next = AtomicU64::new(0);
    let part = || {
        let mut tally = Tally::default();
        loop {
            let index = next.fetch_add(1, Ordering::Relaxed);
            if index >= count {
                return tally;
            }
            work(index, &mut tally);
        }
    };
    let cores = thread::available_parallelism().map_or(1, usize::from);
    let mut whole = Tally::default();
    thread::scope(|scope| {
        let parts: Vec<_> = (0..cores).map(|_| scope.spawn(part)).collect();
        for part in parts {
            whole.add(part.join().expect("a part ends"));
        }
    });
    whole
}
