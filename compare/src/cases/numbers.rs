//! Numbers 14 to 17 and F1 to F7: each cause of 17, and what comes first where two apply.

use reference::state::{Hold, Registration, Standing, State, MAX_PHASE};

use super::{Case, Edit};

pub const fn case(
    name: &'static str,
    table: &'static [u8],
    order: &'static [usize],
    edit: fn(&mut State),
    (activity, number): (usize, u8),
) -> Case {
    Case {
        name,
        table,
        order,
        edit: Edit::Fields(edit),
        breaks: &[],
        activity,
        number,
        awaited: 0,
    }
}

/// A case of number 16: the activity, and how many it waits for.
pub const fn waiting(
    name: &'static str,
    table: &'static [u8],
    order: &'static [usize],
    edit: fn(&mut State),
    (activity, awaited): (usize, u8),
) -> Case {
    let case = case(name, table, order, edit, (activity, 16));
    Case { awaited, ..case }
}

/// Main and activity 1 meet on clock 0, the paper's printed table; work 8.
const MEET: &[u8] = &[2, 2, 0, 5, 1, 1, 1, 0, 1, 0];
/// Main spawns body 1 and reads its own accumulator; work 6.
const READER: &[u8] = &[2, 8, 0, 0, 5, 1, 0, 10, 0, 0, 13, 0, 0];
/// Main spawns body 2, and again in a FINISH; work 9.
const INSIDE: &[u8] = &[3, 5, 2, 0, 6, 1, 0, 5, 2, 0, 0, 13, 0, 0];
/// Body 1 reads main's accumulator while it holds a clock and has a child.
const OTHERS: &[u8] = &[3, 8, 0, 0, 5, 1, 0, 0, 2, 3, 5, 2, 0, 10, 0, 10, 1, 0, 0];
/// Main reads its own accumulator while it holds a clock and has a child.
const HOLDER: &[u8] = &[2, 8, 0, 0, 2, 0, 5, 1, 0, 11, 0, 0, 0];

/// Main waits at the END of a FINISH body for a child's child.
const BELOW: &[u8] = &[4, 6, 1, 0, 5, 2, 0, 0, 5, 3, 0, 0, 13, 0, 0];
/// Main waits at RESET for a child's child.
const RESETTER: &[u8] = &[3, 8, 0, 0, 5, 1, 0, 11, 0, 0, 5, 2, 0, 0, 13, 0, 0];

pub fn nothing(_: &mut State) {}

fn all_steps(state: &mut State) {
    state.steps = 8;
}

/// The activities not yet spawned become ended children of main.
pub fn all_activities(state: &mut State) {
    let spawned = state.spawned().len();
    for activity in &mut state.acts[spawned..] {
        activity.standing = Standing::Ended;
    }
    state.activities = 64;
}

fn last_phase(state: &mut State) {
    let holds = state.acts.iter_mut().flat_map(|a| &mut a.holds);
    holds
        .filter(|hold| hold.is_held())
        .for_each(|hold| hold.phase = MAX_PHASE);
}

pub const CASES: &[Case] = &[
    // Number 14
    case("14 for the next number", MEET, &[0, 0, 0], nothing, (2, 14)),
    case("14 for 63", MEET, &[0, 0, 0], nothing, (63, 14)),
    case("14 for 64", MEET, &[0, 0, 0], nothing, (64, 14)),
    case(
        "14 for 64 of 64",
        MEET,
        &[0, 0, 0],
        all_activities,
        (64, 14),
    ),
    case("14 for 256", MEET, &[0, 0, 0], nothing, (256, 14)),
    case("14 for 65,536", MEET, &[0, 0, 0], nothing, (65_536, 14)),
    case("14 for 2^32", MEET, &[0, 0, 0], nothing, (1 << 32, 14)),
    case(
        "14 for 2^32 and 1",
        MEET,
        &[0, 0, 0],
        nothing,
        ((1 << 32) + 1, 14),
    ),
    case(
        "14 for the greatest number",
        MEET,
        &[0, 0, 0],
        nothing,
        (usize::MAX, 14),
    ),
    case(
        "14 with no activity",
        MEET,
        &[],
        |s| *s = State::default(),
        (0, 14),
    ),
    case(
        "14 before 17, no steps left",
        MEET,
        &[0, 0, 0],
        all_steps,
        (2, 14),
    ),
    case("14 when all have ended", &[1, 0], &[0], nothing, (1, 14)),
    // Number 15
    case("15 before 17, all ended", &[1, 0], &[0], nothing, (0, 15)),
    case(
        "15 for one that faulted",
        &[1, 4, 0, 0],
        &[0],
        nothing,
        (0, 15),
    ),
    case(
        "15 with an unended child, which READ would wait for",
        READER,
        &[0, 0],
        |s| {
            s.acts[0].standing = Standing::Ended;
            s.acts[0].depth = 0;
            s.acts[0].frames = Default::default();
        },
        (0, 15),
    ),
    case(
        "15 for the last of 64",
        MEET,
        &[0, 0, 0],
        all_activities,
        (63, 15),
    ),
    // Number 16
    waiting("16 at a meeting", MEET, &[0, 0, 0], nothing, (0, 1)),
    waiting(
        "16 before 17 at a meeting, no steps left",
        MEET,
        &[0, 0, 0],
        all_steps,
        (0, 1),
    ),
    waiting(
        "16 before 17 at a meeting, last phase",
        MEET,
        &[0, 0, 0],
        last_phase,
        (0, 1),
    ),
    waiting(
        "16 for a holder in an earlier phase",
        MEET,
        &[0, 0, 0, 1],
        |s| {
            s.acts[0].holds[0].phase = 1;
        },
        (0, 1),
    ),
    waiting(
        "16 for itself, live at a meeting",
        MEET,
        &[0, 0, 0, 1],
        |s| {
            s.acts[0].holds[0].registration = Registration::Live;
        },
        (0, 1),
    ),
    case(
        "no wait for a holder in a later phase",
        MEET,
        &[0, 0, 0, 1],
        |s| {
            s.acts[1].holds[0].phase = 1;
            s.acts[1].holds[0].registration = Registration::Live;
        },
        (0, 0),
    ),
    waiting("16 at READ", READER, &[0, 0], nothing, (0, 1)),
    waiting(
        "16 before 17 at READ, no steps left",
        READER,
        &[0, 0],
        |s| s.steps = 6,
        (0, 1),
    ),
    case(
        "no wait at READ for one that faulted",
        READER,
        &[0, 0],
        |s| {
            s.acts[1].standing = Standing::Faulted(reference::Fault::NameHeld);
            s.acts[1].depth = 0;
            s.acts[1].frames = Default::default();
        },
        (0, 0),
    ),
    waiting(
        "16 at the END of a FINISH body",
        INSIDE,
        &[0, 0, 0],
        nothing,
        (0, 1),
    ),
    waiting(
        "16 before 17 at END, no steps left",
        INSIDE,
        &[0, 0, 0],
        |s| s.steps = 9,
        (0, 1),
    ),
    case(
        "no wait at END for a child from before",
        INSIDE,
        &[0, 0, 0, 2, 2],
        nothing,
        (0, 0),
    ),
    waiting(
        "16 at END from the first activity on",
        INSIDE,
        &[0, 0, 0, 2, 2],
        |s| {
            s.acts[0].frames[1].first = 0;
        },
        (0, 1),
    ),
    waiting(
        "16 at END for a child's child",
        BELOW,
        &[0, 0, 1, 1],
        nothing,
        (0, 1),
    ),
    waiting(
        "16 at RESET for a child's child",
        RESETTER,
        &[0, 0, 1, 1],
        nothing,
        (0, 1),
    ),
    case(
        "RESET once it has ended",
        RESETTER,
        &[0, 0, 1, 1, 2, 2],
        nothing,
        (0, 0),
    ),
    // Number 17
    case(
        "17 for a 65th activity",
        &[2, 5, 1, 0, 0, 0],
        &[],
        all_activities,
        (0, 17),
    ),
    case(
        "a 64th activity",
        &[2, 5, 1, 0, 0, 0],
        &[],
        |s| {
            all_activities(s);
            s.activities = 63;
            s.acts[63] = Default::default();
        },
        (0, 0),
    ),
    case(
        "17 for a 17th clock",
        &[1, 2, 0, 0],
        &[],
        |s| s.clocks = 16,
        (0, 17),
    ),
    case(
        "a 16th clock",
        &[1, 2, 0, 0],
        &[],
        |s| s.clocks = 15,
        (0, 0),
    ),
    case(
        "17 for a 17th accumulator",
        &[1, 8, 0, 0, 0],
        &[],
        |s| s.accumulators = 16,
        (0, 17),
    ),
    case(
        "a 16th accumulator",
        &[1, 8, 0, 0, 0],
        &[],
        |s| s.accumulators = 15,
        (0, 0),
    ),
    case(
        "17 for phase 65,536",
        MEET,
        &[0, 0, 0, 1],
        last_phase,
        (0, 17),
    ),
    case(
        "17 for phase 65,536 of one of two clocks",
        &[1, 2, 0, 2, 1, 1, 0],
        &[0, 0, 0],
        |s| {
            s.acts[0].holds[1].phase = MAX_PHASE;
        },
        (0, 17),
    ),
    case(
        "phase 65,535",
        MEET,
        &[0, 0, 0, 1],
        |s| {
            last_phase(s);
            s.acts
                .iter_mut()
                .for_each(|a| a.holds[0].phase = a.holds[0].phase.saturating_sub(1));
        },
        (0, 0),
    ),
    case(
        "arrival in the last phase",
        MEET,
        &[0, 0],
        last_phase,
        (0, 0),
    ),
    case(
        "17 for more steps than the work",
        &[1, 13, 0, 0],
        &[],
        |s| s.steps = 2,
        (0, 17),
    ),
    case(
        "the last step of the work",
        &[1, 13, 0, 0],
        &[],
        |s| s.steps = 1,
        (0, 0),
    ),
    case(
        "17 for a fault beyond the work",
        &[1, 4, 0, 0],
        &[],
        |s| s.steps = 2,
        (0, 17),
    ),
    case(
        "a fault in the last step of the work",
        &[1, 4, 0, 0],
        &[],
        |s| s.steps = 1,
        (0, 101),
    ),
    case(
        "17 for END beyond the work",
        &[1, 0],
        &[],
        |s| s.steps = 1,
        (0, 17),
    ),
    // Faults before 16 and 17
    case(
        "F5 before 16",
        OTHERS,
        &[0, 0, 1, 1],
        |s| {
            s.acts[1].frames[0].offset += 2;
        },
        (1, 105),
    ),
    case(
        "F6 before F7 and 16",
        OTHERS,
        &[0, 0, 1, 1],
        nothing,
        (1, 106),
    ),
    case("F7 before 16", HOLDER, &[0, 0, 0], nothing, (0, 107)),
    case(
        "F4 before 17",
        &[1, 2, 0, 2, 0, 0],
        &[0],
        |s| s.clocks = 16,
        (0, 104),
    ),
    case(
        "F1 of ASYNC before 17",
        &[2, 5, 1, 1, 0, 0],
        &[],
        all_activities,
        (0, 101),
    ),
    case(
        "F2 before 17",
        &[2, 2, 0, 3, 0, 5, 1, 1, 0, 0],
        &[0, 0],
        all_activities,
        (0, 102),
    ),
    case(
        "F3 before F1 and F2",
        &[3, 2, 0, 3, 0, 6, 1, 0, 5, 2, 3, 0, 0],
        &[0, 0, 0],
        nothing,
        (0, 103),
    ),
    case(
        "F1 before F2",
        &[2, 2, 0, 3, 0, 5, 1, 3, 0, 0],
        &[0, 0],
        nothing,
        (0, 101),
    ),
    case(
        "no F3 in a child's own body",
        &[3, 6, 1, 0, 2, 0, 5, 2, 1, 0, 0],
        &[0, 0],
        |s| {
            s.activities = 2;
            s.acts[1].depth = 1;
            s.acts[1].frames[0].body = 1;
            s.acts[1].frames[0].offset = 2;
            s.acts[1].holds[0] = Hold {
                phase: 0,
                clock: 0,
                registration: Registration::Live,
            };
        },
        (1, 0),
    ),
];
