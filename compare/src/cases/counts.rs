//! How many an activity waits for, at a meeting, at the END of a FINISH body and at READ, in reached states and in fit ones that no run
//! reaches.

use reference::state::{Hold, Registration, Standing, State};

use super::numbers::{case, nothing, waiting};
use super::Case;

/// Main and three others meet on clock 0.
const FOUR: &[u8] = &[2, 2, 0, 5, 1, 1, 5, 1, 1, 5, 1, 1, 1, 0, 1, 0];
/// Main and activity 1 meet on clocks 0 and 1.
const TWICE: &[u8] = &[2, 2, 0, 2, 1, 5, 1, 3, 1, 0, 1, 0];
/// Main meets activity 1 on clock 0 and activity 2 on clock 1.
const APART: &[u8] = &[2, 2, 0, 2, 1, 5, 1, 1, 5, 1, 2, 1, 0, 1, 0];
/// Main and 63 others meet on clock 0.
const CROWD: &[u8] = &[3, 2, 0, 7, 63, 1, 1, 0, 5, 2, 1, 0, 1, 0];
/// Two activities inside a finish.
const INSIDE: &[u8] = &[3, 6, 1, 0, 5, 2, 0, 5, 2, 0, 0, 0];
/// Main waits at the END of a FINISH body for a child and its child.
const BELOW: &[u8] = &[4, 6, 1, 0, 5, 2, 0, 0, 5, 3, 0, 0, 13, 0, 0];
/// Activity 1 is in a finish, and 3 is inside it; main's child 2 came during it.
const DURING: &[u8] = &[4, 5, 1, 0, 5, 3, 0, 0, 6, 2, 0, 5, 3, 0, 0, 13, 0, 0];
/// Main reads while it has a child and the child has one.
const READER: &[u8] = &[3, 8, 0, 0, 5, 1, 0, 10, 0, 0, 5, 2, 0, 0, 0];

/// Activity 1 reads, and 3 is its child; main's child 2 has a number between theirs.
const BESIDE: &[u8] = &[3, 5, 1, 0, 5, 2, 0, 0, 8, 0, 0, 5, 2, 0, 10, 0, 0, 13, 0, 0];

/// The activity's hold under name 0.
fn hold(state: &mut State, activity: usize, phase: u32, registration: Registration) {
    state.acts[activity].holds[0] = Hold {
        phase,
        clock: 0,
        registration,
    };
}

/// All activities after the last are spawned as it was, each by the one before it.
pub fn chain(state: &mut State) {
    let last = state.spawned().len() - 1;
    for i in last + 1..64 {
        state.acts[i] = state.acts[last];
        state.acts[i].spawner = i as u8 - 1;
    }
    state.activities = 64;
}

pub fn end(state: &mut State, activity: usize) {
    let own = &mut state.acts[activity];
    own.standing = Standing::Ended;
    own.depth = 0;
    own.frames = Default::default();
    own.holds = Default::default();
}

pub const CASES: &[Case] = &[
    // At a meeting
    waiting("three behind", FOUR, &[0; 5], nothing, (0, 3)),
    waiting("one has come", FOUR, &[0, 0, 0, 0, 0, 2], nothing, (0, 2)),
    waiting(
        "two have come",
        FOUR,
        &[0, 0, 0, 0, 0, 2, 1],
        nothing,
        (0, 1),
    ),
    case(
        "all have come",
        FOUR,
        &[0, 0, 0, 0, 0, 2, 1, 3],
        nothing,
        (0, 0),
    ),
    case("arrival among the live", FOUR, &[0; 4], nothing, (0, 0)),
    waiting(
        "one earlier, one live, one later",
        FOUR,
        &[0; 5],
        |s| {
            hold(s, 0, 2, Registration::Quiesced);
            hold(s, 1, 1, Registration::Quiesced);
            hold(s, 2, 2, Registration::Live);
            hold(s, 3, 3, Registration::Live);
        },
        (0, 2),
    ),
    waiting(
        "itself live, and three behind",
        FOUR,
        &[0; 5],
        |s| hold(s, 0, 0, Registration::Live),
        (0, 4),
    ),
    waiting(
        "itself live, and all others later",
        FOUR,
        &[0; 5],
        |s| {
            hold(s, 0, 6, Registration::Live);
            (1..4).for_each(|other| hold(s, other, 7, Registration::Live));
        },
        (0, 1),
    ),
    waiting(
        "one behind on two clocks counts once",
        TWICE,
        &[0; 4],
        nothing,
        (0, 1),
    ),
    waiting(
        "one behind on the second clock alone",
        TWICE,
        &[0; 4],
        |s| hold(s, 1, 1, Registration::Live),
        (0, 1),
    ),
    waiting(
        "one behind under another name",
        TWICE,
        &[0; 4],
        |s| s.acts[1].holds.reverse(),
        (0, 1),
    ),
    waiting(
        "itself live on two clocks counts once",
        TWICE,
        &[0, 0, 0, 0, 1],
        |s| {
            let holds = s.acts[0].holds.iter_mut().filter(|hold| hold.is_held());
            holds.for_each(|hold| hold.registration = Registration::Live);
        },
        (0, 1),
    ),
    waiting("one behind on each clock", APART, &[0; 5], nothing, (0, 2)),
    waiting("63 behind", CROWD, &[0; 129], nothing, (0, 63)),
    waiting(
        "63 behind and itself",
        CROWD,
        &[0; 129],
        |s| hold(s, 0, 0, Registration::Live),
        (0, 64),
    ),
    // At the END of a FINISH body
    waiting("two inside", INSIDE, &[0; 3], nothing, (0, 2)),
    waiting("one inside", INSIDE, &[0, 0, 0, 1], nothing, (0, 1)),
    waiting(
        "the second alone inside",
        INSIDE,
        &[0; 3],
        |s| s.acts[0].frames[1].first = 2,
        (0, 1),
    ),
    case(
        "none inside",
        INSIDE,
        &[0; 3],
        |s| s.acts[0].frames[1].first = 3,
        (0, 0),
    ),
    waiting("another's child", DURING, &[0, 1, 0, 1], nothing, (1, 1)),
    waiting("a child and its child", BELOW, &[0, 0, 1], nothing, (0, 2)),
    waiting(
        "a chain inside, and a child and its child from before",
        BELOW,
        &[0, 0, 1],
        |s| {
            chain(s);
            s.acts[3].spawner = 0;
            s.acts[0].frames[1].first = 3;
        },
        (0, 61),
    ),
    waiting("a chain inside", BELOW, &[0, 0, 1], chain, (0, 63)),
    // At READ
    waiting("one descendant", READER, &[0, 0], nothing, (0, 1)),
    waiting("two descendants", READER, &[0, 0, 1], nothing, (0, 2)),
    waiting(
        "one whose spawner has ended",
        READER,
        &[0, 0, 1, 1],
        nothing,
        (0, 1),
    ),
    waiting("none beside", BESIDE, &[0, 0, 1, 1], nothing, (1, 1)),
    waiting("a chain of 63", READER, &[0, 0, 1], chain, (0, 63)),
    waiting(
        "the last of a chain",
        READER,
        &[0, 0, 1],
        |s| {
            chain(s);
            (1..63).for_each(|i| end(s, i));
        },
        (0, 1),
    ),
    waiting(
        "each second one of a chain",
        READER,
        &[0, 0, 1],
        |s| {
            chain(s);
            (2..64).step_by(2).for_each(|i| end(s, i));
        },
        (0, 32),
    ),
    case(
        "0 where F5 comes before waiting",
        READER,
        &[0, 0, 1],
        |s| s.acts[0].accumulators = Default::default(),
        (0, 105),
    ),
    case(
        "0 where it has ended before its descendants",
        READER,
        &[0, 0, 1],
        |s| end(s, 0),
        (0, 15),
    ),
];
