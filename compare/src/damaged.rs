//! Damaged states, and states moved to a limit, of a run.

use reference::generate::{damage_state, strain_state, Rng};

use crate::points::{state_agrees, Job};
use crate::tally::Tally;

/// A strained state and some damaged ones.
pub fn states_agree(job: &Job, points: &[Vec<u8>], rng: &mut Rng, tally: &mut Tally) {
    for k in 0..4 {
        let mut state = points[rng.below(points.len())].clone();
        if k == 0 {
            strain_state(&job.table, &mut state, rng);
        } else {
            damage_state(&mut state, rng);
        }
        for answer in state_agrees(job, &state, activities(&state, rng)) {
            tally.meet(answer);
        }
        tally.states += 1;
    }
}

/// Some activities that were spawned, and numbers that were not.
fn activities(state: &[u8], rng: &mut Rng) -> impl Iterator<Item = usize> + Clone {
    let spawned = usize::from(state.get(1).copied().unwrap_or(0)).min(64);
    let start = rng.below(spawned + 1);
    let other = rng.pick(&[63, 64, 255, 256, 65_536, 1 << 32, usize::MAX]);
    (start..spawned + 1).take(4).chain([0, other])
}
