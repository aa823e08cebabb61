//! Random orders.

use super::rng::Rng;
use crate::rules;
use crate::state::State;
use crate::table::Table;

#[derive(Clone, Copy, Debug, PartialEq, Eq)]
pub enum OrderKind {
    /// A random ready activity each time, to the end of the run.
    Drive,
    /// A random unended activity each time, ready or not.
    Careless,
    /// An activity that waits, in half of the cases where there is one; else one that is ready.
    Impatient,
    /// Each unended activity in turn, ready or not.
    RoundRobin,
    /// The lowest ready activity each time.
    LowestFirst,
    /// The highest ready activity each time.
    HighestFirst,
    /// Like Drive, with numbers mixed in that are refused.
    Nonsense,
}

impl OrderKind {
    pub const ALL: [OrderKind; 7] = [
        OrderKind::Drive,
        OrderKind::Careless,
        OrderKind::Impatient,
        OrderKind::RoundRobin,
        OrderKind::LowestFirst,
        OrderKind::HighestFirst,
        OrderKind::Nonsense,
    ];
}

/// An order of a random kind for a table, of at most `most` numbers.
pub fn random_order(rng: &mut Rng, table: &[u8], most: usize) -> Vec<usize> {
    let kind = rng.pick(&OrderKind::ALL);
    order(rng, table, kind, most)
}

/// An order of this kind. It ends with the run, or where it has `most` numbers.
/// For a refused table it is a few numbers without meaning.
pub fn order(rng: &mut Rng, table: &[u8], kind: OrderKind, most: usize) -> Vec<usize> {
    match Table::read(table) {
        Ok(table) => accepted_order(rng, &table, kind, most),
        Err(_) => (0..rng.below(5).min(most)).map(|_| nonsense(rng)).collect(),
    }
}

/// The numbers that fit a byte, for an ORDER file.
pub fn order_bytes(order: &[usize]) -> Vec<u8> {
    order
        .iter()
        .filter_map(|&activity| u8::try_from(activity).ok())
        .collect()
}

fn accepted_order(rng: &mut Rng, table: &Table, kind: OrderKind, most: usize) -> Vec<usize> {
    let mut state = rules::start();
    let mut order = Vec::new();
    while order.len() < most && !state.is_finished() {
        let Some(activity) = choose(rng, table, &state, kind, order.len()) else {
            break;
        };
        order.push(activity);
        // Numbers that are refused change nothing.
        let _ = rules::step(table, &mut state, activity);
    }
    // A finished run refuses every number.
    for _ in 0..rng.below(3).min(most - order.len()) {
        order.push(nonsense(rng));
    }
    order
}

fn choose(
    rng: &mut Rng,
    table: &Table,
    state: &State,
    kind: OrderKind,
    turn: usize,
) -> Option<usize> {
    let spawned = state.spawned().len();
    let is_ready = |&i: &usize| rules::is_ready(table, state, i);
    match kind {
        OrderKind::Drive => random_ready(rng, table, state),
        OrderKind::Careless => rng.choose(&unended(state)),
        OrderKind::Impatient => {
            let waiting = random_waiting(rng, table, state).filter(|_| rng.chance(50));
            waiting.or_else(|| random_ready(rng, table, state))
        }
        OrderKind::RoundRobin => {
            let unended = unended(state);
            unended.get(turn % unended.len().max(1)).copied()
        }
        OrderKind::LowestFirst => (0..spawned).find(is_ready),
        OrderKind::HighestFirst => (0..spawned).rev().find(is_ready),
        OrderKind::Nonsense if rng.chance(30) => Some(nonsense(rng)),
        OrderKind::Nonsense => random_ready(rng, table, state),
    }
}

/// A ready activity: guessed, or else taken from the ready set.
fn random_ready(rng: &mut Rng, table: &Table, state: &State) -> Option<usize> {
    let spawned = state.spawned().len();
    for _ in 0..3 {
        let guess = rng.below(spawned);
        if rules::is_ready(table, state, guess) {
            return Some(guess);
        }
    }
    let ready = rules::ready(table, state);
    let members: Vec<usize> = (0..spawned).filter(|i| ready >> i & 1 == 1).collect();
    rng.choose(&members)
}

fn random_waiting(rng: &mut Rng, table: &Table, state: &State) -> Option<usize> {
    let ready = rules::ready(table, state);
    let mut waiting = unended(state);
    waiting.retain(|i| ready >> i & 1 == 0);
    rng.choose(&waiting)
}

fn unended(state: &State) -> Vec<usize> {
    let spawned = state.spawned().iter().enumerate();
    spawned
        .filter(|(_, activity)| !activity.has_ended())
        .map(|(i, _)| i)
        .collect()
}

fn nonsense(rng: &mut Rng) -> usize {
    match rng.below(6) {
        0 | 1 => rng.below(64),
        2 => rng.below(256),
        3 => rng.below(4),
        4 => rng.pick(&[63, 64, 65, 127, 128, 255, 256, 65_536]),
        _ => rng.pick(&[usize::MAX, usize::MAX - 1, 1 << 32, 1 << 31, 1 << 63]),
    }
}
