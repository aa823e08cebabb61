//! CHOOSE: the stacked bodies that it runs, in number 13; its step and the END of its body, in reached states and in fit ones that no run
//! reaches.

use reference::state::{Standing, State};

use super::numbers::{all_activities, case, nothing, waiting};
use super::unfit::{MEETING, NOT_RUN, PLACE, RISE, RUNS, UNUSED};
use super::{Case, Edit};

/// Body 0: PUT 1, CHOOSE 1, CHOOSE 2, FINISH 1, REPEAT 2 1, ASYNC 1 00, NEXT, END. Body 1: CHOOSE 3, END. Bodies 2 and 3: NEXT, END.
const TABLE: &[u8] = &[
    4, 12, 1, 0, 0, 0, 17, 1, 17, 2, 6, 1, 7, 2, 1, 5, 1, 0, 1, 0, // body 0
    17, 3, 0, // body 1
    1, 0, // body 2
    1, 0, // body 3
];

/// Main is in body 3, in body 1, in body 0, each run by a CHOOSE.
const ORDER: &[usize] = &[0, 0, 0];

/// The places of body 0.
const CHOOSE_1: u16 = 5;
const CHOOSE_2: u16 = 7;
const FINISH_1: u16 = 9;
const REPEAT_1: u16 = 11;
const ASYNC_1: u16 = 14;
const NEXT: u16 = 17;

/// CHOOSE of an END, with hand 0; work 3.
const BARE: &[u8] = &[2, 17, 1, 0, 0];
/// PUT 1, then CHOOSE of an END; work 4.
const RUN: &[u8] = &[2, 12, 1, 0, 0, 0, 17, 1, 0, 0];
/// REPEAT 2 of a CHOOSE of an END and PUT 5.
const ROUNDS: &[u8] = &[3, 7, 2, 1, 0, 17, 2, 12, 5, 0, 0, 0, 0, 0];
/// A child in a CHOOSE body.
const CHILD: &[u8] = &[3, 12, 1, 0, 0, 0, 17, 1, 0, 5, 2, 0, 0, 4, 0, 0];
/// A child in a CHOOSE body, in a FINISH body.
const INSIDE: &[u8] = &[4, 12, 1, 0, 0, 0, 6, 1, 0, 17, 2, 0, 5, 3, 0, 0, 4, 0, 0];
/// A child in a FINISH body, in a CHOOSE body.
const AROUND: &[u8] = &[4, 12, 1, 0, 0, 0, 17, 1, 0, 6, 2, 0, 5, 3, 0, 0, 4, 0, 0];
/// CLOCK 0, PUT 1, FINISH of a CHOOSE of an ASYNC on clock 0.
const LENT_INSIDE: &[u8] = &[4, 2, 0, 12, 1, 0, 0, 0, 6, 1, 0, 17, 2, 0, 5, 3, 1, 0, 0];
/// CLOCK 0, PUT 1, CHOOSE of an ASYNC on clock 0 and a NEXT.
const LENT: &[u8] = &[3, 2, 0, 12, 1, 0, 0, 0, 17, 1, 0, 5, 2, 1, 1, 0, 0];
/// CLOCK 0, PUT 1, CHOOSE of a FINISH of an ASYNC on clock 0.
const LENT_AROUND: &[u8] = &[4, 2, 0, 12, 1, 0, 0, 0, 17, 1, 0, 6, 2, 0, 5, 3, 1, 0, 0];
/// ACC 0, PUT 1, ASYNC of an END, CHOOSE of a READ.
const READER: &[u8] = &[3, 8, 0, 0, 12, 1, 0, 0, 0, 5, 2, 0, 17, 1, 0, 10, 0, 0, 0];
/// PUT 2^31, then sixteen bodies, each in a CHOOSE of the one before.
const DEEP: &[u8] = &[
    16, 12, 0, 0, 0, 128, 17, 1, 0, 17, 2, 0, 17, 3, 0, 17, 4, 0, 17, 5, 0, 17, 6, 0, 17, 7, 0, 17,
    8, 0, 17, 9, 0, 17, 10, 0, 17, 11, 0, 17, 12, 0, 17, 13, 0, 17, 14, 0, 17, 15, 0, 0,
];

/// An edit of main's stack of CHOOSE bodies that breaks these clauses.
const fn unfit(name: &'static str, breaks: &'static [usize], edit: fn(&mut State)) -> Case {
    Case {
        name,
        table: TABLE,
        order: ORDER,
        edit: Edit::Fields(edit),
        breaks,
        activity: 0,
        number: 13,
        awaited: 0,
    }
}

/// An edit of it that leaves the state fit; main's step is a step.
const fn fit(name: &'static str, edit: fn(&mut State)) -> Case {
    case(name, TABLE, ORDER, edit, (0, 0))
}

/// Main's stack ends with body 1, which this place of body 0 runs.
fn run_from(state: &mut State, offset: u16) {
    state.acts[0].frames[0].offset = offset;
    state.acts[0].frames[2] = Default::default();
    state.acts[0].depth = 2;
}

fn hand<const HAND: u32>(state: &mut State) {
    state.acts[0].hand = HAND;
}

/// The greatest counts of activities, clocks and accumulators, and main's hand.
fn full<const HAND: u32>(state: &mut State) {
    all_activities(state);
    (state.clocks, state.accumulators) = (16, 16);
    state.acts[0].hand = HAND;
}

pub const CASES: &[Case] = &[
    // Number 13
    fit("a CHOOSE body in a CHOOSE body", nothing),
    fit("a CHOOSE body with hand 0", hand::<0>),
    fit("a CHOOSE body with hand 2^31", hand::<0x8000_0000>),
    unfit("1 run of a CHOOSE body", &[UNUSED], |s| {
        s.acts[0].frames[1].runs = 1
    }),
    unfit("255 runs of a CHOOSE body", &[UNUSED], |s| {
        s.acts[0].frames[2].runs = 255
    }),
    unfit("a first of a CHOOSE body", &[UNUSED], |s| {
        s.acts[0].frames[1].first = 1
    }),
    unfit("a first of the upper CHOOSE body", &[UNUSED], |s| {
        s.acts[0].frames[2].first = 1
    }),
    unfit("a stacked body that CHOOSE does not run", &[NOT_RUN], |s| {
        s.acts[0].frames[2].body = 2
    }),
    unfit("the CHOOSE of another body below", &[NOT_RUN], |s| {
        run_from(s, CHOOSE_2)
    }),
    unfit(
        "the CHOOSE of another body below the body under the top",
        &[NOT_RUN],
        |s| s.acts[0].frames[0].offset = CHOOSE_2,
    ),
    fit("that CHOOSE with its body", |s| {
        run_from(s, CHOOSE_2);
        s.acts[0].frames[1].body = 2;
    }),
    fit("the same CHOOSE again", |s| run_from(s, CHOOSE_1)),
    unfit("the ASYNC of that body below", &[NOT_RUN], |s| {
        run_from(s, ASYNC_1)
    }),
    unfit("a NEXT below", &[NOT_RUN], |s| run_from(s, NEXT)),
    unfit("the operand of a CHOOSE below", &[PLACE, NOT_RUN], |s| {
        run_from(s, CHOOSE_1 + 1)
    }),
    unfit("the operand of a CHOOSE on top", &[PLACE], |s| {
        run_from(s, CHOOSE_1);
        s.acts[0].frames[1].offset = 1;
    }),
    unfit("the same body again on a CHOOSE", &[NOT_RUN, RISE], |s| {
        s.acts[0].frames[2].body = 1
    }),
    unfit("at a meeting on a CHOOSE", &[MEETING], |s| {
        run_from(s, CHOOSE_1);
        s.acts[0].standing = Standing::Meeting;
    }),
    unfit("no runs left of the REPEAT of that body", &[RUNS], |s| {
        run_from(s, REPEAT_1)
    }),
    fit("the REPEAT of that body", |s| {
        run_from(s, REPEAT_1);
        s.acts[0].frames[1].runs = 2;
    }),
    fit("the FINISH of that body, from the first activity on", |s| {
        run_from(s, FINISH_1)
    }),
    fit("the FINISH of that body", |s| {
        run_from(s, FINISH_1);
        s.acts[0].frames[1].first = 1;
    }),
    // The hand
    case("CHOOSE with hand 0", BARE, &[], nothing, (0, 0)),
    case("CHOOSE with hand 1", BARE, &[], hand::<1>, (0, 0)),
    case("CHOOSE with hand 2^8", BARE, &[], hand::<0x100>, (0, 0)),
    case("CHOOSE with hand 2^16", BARE, &[], hand::<0x1_0000>, (0, 0)),
    case(
        "CHOOSE with hand 2^24",
        BARE,
        &[],
        hand::<0x100_0000>,
        (0, 0),
    ),
    case(
        "CHOOSE with hand 2^31",
        BARE,
        &[],
        hand::<0x8000_0000>,
        (0, 0),
    ),
    case(
        "CHOOSE with the greatest hand",
        BARE,
        &[],
        hand::<{ u32::MAX }>,
        (0, 0),
    ),
    case(
        "another's hand is not looked at",
        BARE,
        &[],
        |s| {
            s.activities = 2;
            s.acts[1].standing = Standing::Ended;
            s.acts[1].hand = 1;
        },
        (0, 0),
    ),
    case("the next round", ROUNDS, &[0; 4], nothing, (0, 0)),
    case("15 after a skipped body", BARE, &[0, 0], nothing, (0, 15)),
    case("CHOOSE past a child", READER, &[0; 3], nothing, (0, 0)),
    case(
        "CHOOSE past a child, hand 0",
        READER,
        &[0; 3],
        hand::<0>,
        (0, 0),
    ),
    // Limits
    case("CHOOSE needs no room", BARE, &[], full::<0>, (0, 0)),
    case(
        "CHOOSE that runs needs no room",
        BARE,
        &[],
        full::<1>,
        (0, 0),
    ),
    case(
        "17 for CHOOSE beyond the work, hand 0",
        BARE,
        &[],
        |s| s.steps = 3,
        (0, 17),
    ),
    case(
        "17 for CHOOSE beyond the work, hand 1",
        RUN,
        &[0],
        |s| s.steps = 4,
        (0, 17),
    ),
    case(
        "CHOOSE in the last step of the work",
        RUN,
        &[0],
        |s| s.steps = 3,
        (0, 0),
    ),
    case(
        "17 for the END of a CHOOSE body beyond the work",
        RUN,
        &[0, 0],
        |s| s.steps = 4,
        (0, 17),
    ),
    case("16 bodies on a stack", DEEP, &[0; 16], nothing, (0, 0)),
    case("the 16th body begins", DEEP, &[0; 15], nothing, (0, 0)),
    case("the END of the 15th", DEEP, &[0; 17], nothing, (0, 0)),
    // The END of its body
    case("END of a CHOOSE body", RUN, &[0, 0], nothing, (0, 0)),
    case(
        "END of a CHOOSE body with hand 0",
        RUN,
        &[0, 0],
        hand::<0>,
        (0, 0),
    ),
    case(
        "END of a CHOOSE body past a child",
        CHILD,
        &[0, 0, 0],
        nothing,
        (0, 0),
    ),
    case(
        "no F8 at the END of a CHOOSE body",
        CHILD,
        &[0, 0, 0, 1],
        nothing,
        (0, 0),
    ),
    case(
        "no F8 there within a FINISH",
        INSIDE,
        &[0, 0, 0, 0, 1],
        nothing,
        (0, 0),
    ),
    waiting(
        "16 at the END of the FINISH around it",
        INSIDE,
        &[0, 0, 0, 0, 0],
        nothing,
        (0, 1),
    ),
    case(
        "F8 at the END of the FINISH around it",
        INSIDE,
        &[0, 0, 0, 0, 1, 0],
        nothing,
        (0, 108),
    ),
    waiting(
        "16 at the END of a FINISH within it",
        AROUND,
        &[0, 0, 0, 0],
        nothing,
        (0, 1),
    ),
    case(
        "F8 at the END of a FINISH within it",
        AROUND,
        &[0, 0, 0, 0, 1],
        nothing,
        (0, 108),
    ),
    // In its body
    case(
        "F3 in it, a FINISH around",
        LENT_INSIDE,
        &[0; 4],
        nothing,
        (0, 103),
    ),
    case(
        "F3 in it with hand 0",
        LENT_INSIDE,
        &[0; 4],
        hand::<0>,
        (0, 103),
    ),
    case(
        "F3 in a FINISH within it",
        LENT_AROUND,
        &[0; 4],
        nothing,
        (0, 103),
    ),
    case("no F3 in it alone", LENT, &[0; 3], nothing, (0, 0)),
    waiting("16 at a meeting in it", LENT, &[0; 5], nothing, (0, 1)),
    waiting("16 at READ in it", READER, &[0; 4], nothing, (0, 1)),
    case("READ in it", READER, &[0, 0, 0, 0, 1], nothing, (0, 0)),
];
