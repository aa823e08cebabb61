//! F8: at the END of a FINISH body, in reached states and in fit ones that no run reaches.

use reference::state::{Standing, State};
use reference::Fault;

use super::counts::{chain, end};
use super::numbers::{all_activities, case, nothing, waiting};
use super::Case;

/// A child faults inside main's finish; work 6.
const CHILD: &[u8] = &[3, 6, 1, 0, 5, 2, 0, 0, 3, 0, 0];
/// A child's child faults inside main's finish.
const BELOW: &[u8] = &[4, 6, 1, 0, 5, 2, 0, 0, 5, 3, 0, 0, 3, 0, 0];
/// One child faults inside main's finish, and one ends well; work 8.
const TWO: &[u8] = &[4, 6, 1, 0, 5, 2, 0, 5, 3, 0, 0, 3, 0, 0, 0];
/// A child faults before main's finish, inside which nobody is.
const BEFORE: &[u8] = &[3, 5, 2, 0, 6, 1, 0, 0, 3, 0, 0];
/// Main's child has a finish with a fault inside, and all are inside main's.
const NESTED: &[u8] = &[5, 6, 1, 0, 5, 2, 0, 0, 6, 3, 0, 5, 4, 0, 0, 3, 0, 0];
/// Main has two finishes, one after the other, each with a child.
const AFTER: &[u8] = &[4, 6, 1, 6, 2, 0, 5, 3, 0, 0, 5, 3, 0, 0, 0];
/// Main runs a FINISH with a child twice.
const AGAIN: &[u8] = &[4, 7, 2, 1, 0, 6, 2, 0, 5, 3, 0, 0, 0];
/// Main is in a REPEAT inside a FINISH, and its child has faulted.
const REPEATED: &[u8] = &[4, 6, 1, 0, 7, 2, 2, 0, 5, 3, 0, 0, 3, 0, 0];
/// Main has an inner finish in its finish; a child is inside the outer one alone.
const OUTER: &[u8] = &[4, 6, 1, 0, 5, 3, 0, 6, 2, 0, 0, 3, 0, 0];
/// Activity 1 is in a finish, and 3 is inside it; main's child 2 faults during it.
const DURING: &[u8] = &[
    5, 5, 1, 0, 5, 4, 0, 0, 6, 2, 0, 5, 3, 0, 0, 13, 0, 0, 3, 0, 0,
];
/// Activity 1 meets main on clock 0; main passes a fault on before it comes.
const MEETING: &[u8] = &[4, 2, 0, 5, 2, 1, 6, 1, 1, 0, 5, 3, 0, 0, 1, 0, 3, 1, 0];

fn fault(state: &mut State, activity: usize, number: u8) {
    end(state, activity);
    let fault = Fault::from_number(number).expect("a fault");
    state.acts[activity].standing = Standing::Faulted(fault);
}

/// Activity 1 has ended with this fault.
fn faulted<const NUMBER: u8>(state: &mut State) {
    fault(state, 1, NUMBER);
}

/// Activity 1 has 62 others below it, in a chain; those from 1 on have ended, the last with F1.
fn faulted_chain(state: &mut State) {
    chain(state);
    (1..63).for_each(|i| end(state, i));
    fault(state, 63, 1);
}

pub const CASES: &[Case] = &[
    // Each fault inside, by its number
    case("F8 for F1", CHILD, &[0, 0], faulted::<1>, (0, 108)),
    case("F8 for F2", CHILD, &[0, 0], faulted::<2>, (0, 108)),
    case("F8 for F3", CHILD, &[0, 0], faulted::<3>, (0, 108)),
    case("F8 for F4", CHILD, &[0, 0], faulted::<4>, (0, 108)),
    case("F8 for F5", CHILD, &[0, 0], faulted::<5>, (0, 108)),
    case("F8 for F6", CHILD, &[0, 0], faulted::<6>, (0, 108)),
    case("F8 for F7", CHILD, &[0, 0], faulted::<7>, (0, 108)),
    case("F8 for F8", CHILD, &[0, 0], faulted::<8>, (0, 108)),
    case(
        "no F8 for one that ended",
        CHILD,
        &[0, 0],
        |s| end(s, 1),
        (0, 0),
    ),
    case("15 for one with F8", CHILD, &[0, 0, 1, 0], nothing, (0, 15)),
    // Who is inside
    case("F8 for a child", CHILD, &[0, 0, 1], nothing, (0, 108)),
    case(
        "F8 for a child's child",
        BELOW,
        &[0, 0, 1, 1, 2],
        nothing,
        (0, 108),
    ),
    case(
        "F8 for the last of a chain",
        BELOW,
        &[0, 0, 1],
        faulted_chain,
        (0, 108),
    ),
    waiting(
        "16 for the last of a chain, all others having faulted",
        BELOW,
        &[0, 0, 1],
        |s| {
            chain(s);
            (1..63).for_each(|i| fault(s, i, 1));
        },
        (0, 1),
    ),
    case(
        "no F8 for a child from before",
        BEFORE,
        &[0, 1, 0],
        nothing,
        (0, 0),
    ),
    case(
        "F8 for all from the first activity on",
        BEFORE,
        &[0, 1, 0],
        |s| s.acts[0].frames[1].first = 0,
        (0, 108),
    ),
    case(
        "no F8 for one with a number below the first",
        CHILD,
        &[0, 0, 1],
        |s| s.acts[0].frames[1].first = 2,
        (0, 0),
    ),
    case(
        "no F8 for one from an earlier finish",
        AFTER,
        &[0, 0, 1, 0, 0, 0, 2],
        faulted::<1>,
        (0, 0),
    ),
    case(
        "no F8 for one from an earlier run",
        AGAIN,
        &[0, 0, 0, 1, 0, 0, 0, 0, 2],
        faulted::<8>,
        (0, 0),
    ),
    case(
        "F8 in the second run",
        AGAIN,
        &[0, 0, 0, 1, 0, 0, 0, 0],
        |s| fault(s, 2, 1),
        (0, 108),
    ),
    case(
        "no F8 for another's child",
        DURING,
        &[0, 1, 0, 1, 2, 3, 3],
        nothing,
        (1, 0),
    ),
    case(
        "F8 for another's child that became its own",
        DURING,
        &[0, 1, 0, 1, 2, 3, 3],
        |s| s.acts[2].spawner = 1,
        (1, 108),
    ),
    // Passed on
    case(
        "F8 for a child's finish",
        NESTED,
        &[0, 0, 1, 1, 2],
        nothing,
        (1, 108),
    ),
    waiting(
        "16 while it is passed on",
        NESTED,
        &[0, 0, 1, 1, 2],
        nothing,
        (0, 1),
    ),
    case(
        "F8 passed on",
        NESTED,
        &[0, 0, 1, 1, 2, 1],
        nothing,
        (0, 108),
    ),
    case(
        "F8 for the child of one that ended well",
        NESTED,
        &[0, 0, 1, 1, 2, 1],
        |s| end(s, 1),
        (0, 108),
    ),
    // Other bodies
    case(
        "no F8 at the END of body 0",
        BEFORE,
        &[0, 1, 0, 0],
        nothing,
        (0, 0),
    ),
    case(
        "no F8 at the END of a REPEAT body",
        REPEATED,
        &[0, 0, 0, 1],
        nothing,
        (0, 0),
    ),
    case(
        "F8 after the REPEAT",
        REPEATED,
        &[0, 0, 0, 1, 0, 0, 2, 0],
        nothing,
        (0, 108),
    ),
    case(
        "no F8 at the END of the inner finish",
        OUTER,
        &[0, 0, 1, 0],
        nothing,
        (0, 0),
    ),
    case(
        "F8 at the END of the outer",
        OUTER,
        &[0, 0, 1, 0, 0],
        nothing,
        (0, 108),
    ),
    // After 16, before 17 for all but the steps
    waiting("16 before F8", TWO, &[0, 0, 0, 1], nothing, (0, 1)),
    waiting(
        "16 before F8 and 17",
        TWO,
        &[0, 0, 0, 1],
        |s| s.steps = 8,
        (0, 1),
    ),
    case(
        "F8 once all have ended",
        TWO,
        &[0, 0, 0, 1, 2],
        nothing,
        (0, 108),
    ),
    case(
        "17 in place of F8",
        CHILD,
        &[0, 0, 1],
        |s| s.steps = 6,
        (0, 17),
    ),
    case(
        "F8 in the last step of the work",
        CHILD,
        &[0, 0, 1],
        |s| s.steps = 5,
        (0, 108),
    ),
    case(
        "F8 needs no room",
        CHILD,
        &[0, 0, 1],
        |s| {
            all_activities(s);
            (s.clocks, s.accumulators) = (16, 16);
        },
        (0, 108),
    ),
    // Clocks
    case(
        "F8 drops a clock",
        MEETING,
        &[0, 0, 0, 0, 1, 2],
        nothing,
        (0, 108),
    ),
    waiting(
        "16 before it is dropped",
        MEETING,
        &[0, 0, 0, 0, 1, 2],
        nothing,
        (1, 1),
    ),
    case(
        "passing after F8",
        MEETING,
        &[0, 0, 0, 0, 1, 2, 0],
        nothing,
        (1, 0),
    ),
];
