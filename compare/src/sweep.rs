//! Reached states with each of their bytes changed in turn.

use reference::answer::number;
use reference::bytes::{encode, LENGTH};
use reference::generate::{fault_table, order, program_table, OrderKind, Rng};
use reference::rules;
use reference::state::{Activity, Frame, State};
use reference::table::{Command, Table};

use crate::cores;
use crate::points::{state_agrees, Job};
use crate::tally::Tally;

/// The bytes of a state are shared out in so many parts.
const PARTS: u64 = 56;

/// A reached state of a table.
struct Reached {
    job: Job,
    state: State,
}

/// Every byte of some states of tables from the seed.
pub fn all_agree(seed: u64) -> Tally {
    let mut rng = Rng::new(seed);
    let states = [
        reached(&mut rng, |_, _| true),
        reached(&mut rng, |_, _| true),
        reached(&mut rng, in_choose_body),
        passing_on(&mut rng),
    ];
    cores::share(states.len() as u64 * PARTS, |index, tally| {
        let swept = &states[(index / PARTS) as usize];
        let length = LENGTH / PARTS as usize;
        let from = (index % PARTS) as usize * length;
        for at in from..from + length {
            byte_agrees(swept, at, tally);
        }
    })
}

/// A state with a little of everything and of this kind, halfway through the run of a short table.
fn reached(rng: &mut Rng, kind: fn(&Table, &State) -> bool) -> Reached {
    loop {
        let table = program_table(rng);
        let order = order(rng, &table, OrderKind::Drive, 500);
        let Some(job) = Job::read("a swept state", &table) else {
            continue;
        };
        let mut state = rules::start();
        for &activity in &order[..order.len() / 2] {
            let _ = rules::step(&job.table, &mut state, activity);
        }
        if table.len() < 150 && is_rich(&state) && kind(&job.table, &state) {
            return Reached { job, state };
        }
    }
}

/// A state in which an activity is about to fault with F8, and some clock is held.
fn passing_on(rng: &mut Rng) -> Reached {
    loop {
        let table = fault_table(rng, 8);
        let order = order(rng, &table, OrderKind::Drive, 500);
        let Some(job) = Job::read("a swept state before F8", &table) else {
            continue;
        };
        let mut state = rules::start();
        for &activity in &order {
            let before = state.clone();
            let answer = number(rules::step(&job.table, &mut state, activity));
            let held = before.spawned().iter().any(|a| a.held().count() > 0);
            if answer == 108 && held && table.len() < 150 && before.activities > 3 {
                return Reached { job, state: before };
            }
        }
    }
}

/// Whether there is something of each kind to be changed.
fn is_rich(state: &State) -> bool {
    let spawned = state.spawned();
    state.accumulators > 1
        && (4..10).contains(&state.activities)
        && spawned.iter().any(|a| a.has_ended())
        && spawned.iter().filter(|a| a.held().count() > 0).count() > 1
        && spawned.iter().any(|a| a.stack().len() > 2)
}

/// Whether an activity is in a body that a CHOOSE runs.
fn in_choose_body(table: &Table, state: &State) -> bool {
    let runs = |pair: &[Frame]| {
        let place = table.place(pair[0].body, pair[0].offset);
        place.is_some_and(|place| matches!(place.command, Command::Choose { .. }))
    };
    let mut stacks = state.spawned().iter().map(Activity::stack);
    stacks.any(|stack| stack.windows(2).any(runs))
}

/// The byte with each of its bits changed, 0, and 255; a step of each activity in turn.
fn byte_agrees(swept: &Reached, at: usize, tally: &mut Tally) {
    let mut bytes = encode(&swept.state);
    let was = bytes[at];
    let bits = (0..8).map(|bit| was ^ 1 << bit);
    for (turn, value) in bits.chain([0, 255]).enumerate() {
        let activity = (at + turn) % (usize::from(swept.state.activities) + 1);
        bytes[at] = value;
        let answers = state_agrees(&swept.job, &bytes, [activity].into_iter());
        tally.meet(answers[0]);
        tally.edits += 1;
    }
}
