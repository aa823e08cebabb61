//! The tables and orders that are measured.
use reference::{rules, Table};

/// What an activity does over and over: NEXT, PUT, OFFER, FETCH, ADD, STORE, an ATOM of two, and a FINISH of a bare END.
const ROUND: [u8; 22] = [
    0x01, 0x0C, 7, 0, 0, 0, 0x09, 0, 0x0D, 3, 0x0F, 4, 0x0E, 5, 0x10, 2, 0x0D, 1, 0x0F, 2, 0x06, 4,
];

/// The steps of a round.
const ROUND_STEPS: usize = 10;

/// The bytes around the rounds.
const FRAME_BYTES: usize = 23;

/// About how many steps a table takes.
const WORK: usize = 40_000;

/// The most steps of a run, and the fewest single steps.
const RUN_STEPS: usize = 10_000;
const FEWEST: usize = 200;

/// A table with an order whose every step is accepted.
pub struct Job {
    pub activities: usize,
    pub table: Vec<u8>,
    pub order: Vec<u8>,
    /// The steps after which all activities are there.
    pub spawned: usize,
}

impl Job {
    /// So many activities on one clock, and a table of so many bytes.
    pub fn new(activities: usize, bytes: usize) -> Job {
        let table = table(activities, bytes);
        assert_eq!(table.len(), bytes);
        let read = Table::read(&table).expect("an accepted table");
        assert_eq!(read.counts().activities as usize, activities);
        let (order, spawned) = order(&read, activities);
        Job { activities, table, order, spawned }
    }

    /// The steps that are measured one by one: a round of each activity at least.
    pub fn steps(&self) -> &[u8] {
        let count = FEWEST.max(self.activities * ROUND_STEPS);
        &self.order[self.spawned..(self.spawned + count).min(self.order.len())]
    }

    /// The order up to the last of these.
    pub fn prefix(&self) -> &[u8] {
        &self.order[..self.spawned + self.steps().len()]
    }
}

/// Body 0 makes a clock, an accumulator and the activities; all run body 3, as often as the work allows; it holds the rounds.
fn table(activities: usize, bytes: usize) -> Vec<u8> {
    let rounds = (bytes - FRAME_BYTES) / ROUND.len();
    let runs = (WORK / (activities * rounds * ROUND_STEPS)).clamp(1, 255) as u8;
    let mut table = vec![5, 0x02, 0, 0x08, 0, 0, 0x07, (activities - 1) as u8, 1, 0x07, runs, 3, 0];
    table.extend([0x05, 2, 0x01, 0]);
    table.extend([0x07, runs, 3, 0]);
    for _ in 0..rounds {
        table.extend(ROUND);
    }
    while table.len() + 3 < bytes {
        table.extend([0x0D, 0]);
    }
    if table.len() + 2 < bytes {
        table.push(0x01);
    }
    table.extend([0, 0]);
    table
}

/// The activity after the last that can step, in turn.
fn next(ready: u64, last: usize) -> Option<usize> {
    (1..=64).map(|d| (last + d) % 64).find(|&i| ready >> i & 1 == 1)
}

/// An order that steps each activity that can, in turn, and the steps after which all are there.
fn order(table: &Table, activities: usize) -> (Vec<u8>, usize) {
    let mut state = rules::start();
    let (mut order, mut last, mut spawned) = (Vec::new(), 63, 0);
    while let Some(i) = next(rules::ready(table, &state), last) {
        if order.len() == RUN_STEPS {
            break;
        }
        rules::step(table, &mut state, i).expect("a ready activity steps");
        order.push(i as u8);
        last = i;
        if spawned == 0 && usize::from(state.activities) == activities {
            spawned = order.len();
        }
    }
    (order, spawned)
}
