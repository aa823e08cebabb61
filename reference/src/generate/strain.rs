//! States at the limits of number 17.

use super::rng::Rng;
use crate::bytes::{decode, encode};
use crate::rules;
use crate::state::{Hold, Registration, Standing, State, MAX_PHASE};
use crate::table::Table;

/// Brings an encoded fit state to a limit and leaves it fit; gives the name of the strain.
pub fn strain_state(table: &Table, bytes: &mut Vec<u8>, rng: &mut Rng) -> Option<&'static str> {
    let mut state = decode(bytes)?;
    let name = match rng.below(6) {
        0 => {
            fill_activities(&mut state);
            "64 activities"
        }
        1 => {
            state.clocks = 16;
            "16 clocks"
        }
        2 => {
            state.accumulators = 16;
            "16 accumulators"
        }
        3 => {
            raise_phases(&mut state);
            "last phase"
        }
        4 => {
            state.steps = table.work();
            "all steps taken"
        }
        _ => {
            fill_activities(&mut state);
            state.clocks = 16;
            state.accumulators = 16;
            raise_phases(&mut state);
            "all limits but the steps"
        }
    };
    *bytes = encode(&state);
    Some(name)
}

/// The activities not yet spawned become ended children of main.
fn fill_activities(state: &mut State) {
    let spawned = state.spawned().len();
    for activity in &mut state.acts[spawned..] {
        activity.standing = Standing::Ended;
    }
    state.activities = 64;
}

fn raise_phases(state: &mut State) {
    let holds = state.acts.iter_mut().flat_map(|a| &mut a.holds);
    for hold in holds.filter(|hold| hold.is_held()) {
        hold.phase = MAX_PHASE;
    }
}

/// A fit state in which a step of an activity is answered with 17.
#[derive(Clone, Debug)]
pub struct LimitCase {
    pub cause: &'static str,
    pub table: Vec<u8>,
    pub state: Vec<u8>,
    pub activity: usize,
}

/// One state for each cause of 17, and one for a faulting step beyond the work.
pub fn limit_cases() -> Vec<LimitCase> {
    let case = |cause, table: &[u8], change: fn(&mut State)| {
        let mut state = rules::start();
        change(&mut state);
        LimitCase {
            cause,
            table: table.to_vec(),
            state: encode(&state),
            activity: 0,
        }
    };
    vec![
        case("65th activity", &[2, 5, 1, 0, 0, 0], fill_activities),
        case("17th clock", &[1, 2, 0, 0], |state| state.clocks = 16),
        case("17th accumulator", &[1, 8, 0, 0, 0], |state| {
            state.accumulators = 16
        }),
        case("phase 65,536", &[1, 2, 3, 1, 0], |state| {
            state.clocks = 1;
            state.steps = 2;
            state.acts[0].frames[0].offset = 2;
            state.acts[0].standing = Standing::Meeting;
            state.acts[0].holds[3] = Hold {
                phase: MAX_PHASE,
                clock: 0,
                registration: Registration::Quiesced,
            };
        }),
        case("more steps than the work", &[1, 13, 0, 0], |state| {
            state.steps = 2
        }),
        case(
            "more steps than the work, faulting",
            &[1, 4, 0, 0],
            |state| state.steps = 2,
        ),
    ]
}
