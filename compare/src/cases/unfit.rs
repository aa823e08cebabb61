//! Number 13: each clause, and bytes that encode no state.

use reference::bytes::{
    ACCUMULATORS_AT, ACTIVITIES_AT, ACTIVITY_BYTES, FRAMES_AT, HOLDS_AT, LENGTH,
};
use reference::state::{Hold, Registration, Standing, State};
use reference::table::Operator;
use reference::Fault;

use super::{Case, Edit};

// The clauses, by their places in the paper.
pub const LIMIT: usize = 0;
pub const STEPS: usize = 1;
pub const RUNS: usize = 2;
pub const PLACE: usize = 3;
pub const NO_BODY: usize = 4;
pub const ENDED: usize = 5;
pub const NOT_RUN: usize = 6;
pub const TWO_NAMES: usize = 7;
pub const MEETING: usize = 8;
pub const RISE: usize = 9;
pub const SPAWNER: usize = 10;
pub const UNMADE: usize = 11;
pub const UNUSED: usize = 12;

/// Body 0: CLOCK 0, ACC 0 0, ASYNC 1 01, ASYNC 4 00, FINISH 2, END.
/// Body 1: NEXT, ATOM of FETCH 0 and ADD 1, END. Body 2: REPEAT 3 of body 3, END.
/// Body 3: NEXT, END. Body 4: END. Work 22.
const TABLE: &[u8] = &[
    5, 2, 0, 8, 0, 0, 5, 1, 1, 5, 4, 0, 6, 2, 0, // body 0
    1, 16, 2, 13, 0, 15, 1, 0, // body 1
    7, 3, 3, 0, // body 2
    1, 0, // body 3
    0, // body 4
];

/// Main is in a REPEAT inside a FINISH, activity 1 at a meeting, activity 2 has ended.
const ORDER: &[usize] = &[0, 0, 0, 0, 2, 0, 0, 1];

/// An edit of the fields that breaks these clauses.
const fn unfit(name: &'static str, breaks: &'static [usize], edit: fn(&mut State)) -> Case {
    Case {
        name,
        table: TABLE,
        order: ORDER,
        edit: Edit::Fields(edit),
        breaks,
        activity: 0,
        number: 13,
        awaited: 0,
    }
}

/// An edit after which the bytes encode no state.
const fn no_state(name: &'static str, edit: fn(&mut Vec<u8>)) -> Case {
    Case {
        name,
        table: TABLE,
        order: ORDER,
        edit: Edit::Bytes(edit),
        breaks: &[],
        activity: 0,
        number: 13,
        awaited: 0,
    }
}

const fn live(clock: u8) -> Hold {
    Hold {
        phase: 0,
        clock,
        registration: Registration::Live,
    }
}

/// Activity 1 runs on from this place.
fn place(state: &mut State, offset: u16) {
    state.acts[1].standing = Standing::Running;
    state.acts[1].frames[0].offset = offset;
}

/// Where an activity's bytes begin.
const fn at(activity: usize) -> usize {
    ACTIVITIES_AT + ACTIVITY_BYTES * activity
}

pub const CASES: &[Case] = &[
    unfit("65 activities", &[LIMIT], |s| {
        s.activities = 65;
        s.acts[3..]
            .iter_mut()
            .for_each(|a| a.standing = Standing::Ended);
    }),
    unfit("255 activities", &[LIMIT], |s| {
        s.activities = 255;
        s.acts[3..]
            .iter_mut()
            .for_each(|a| a.standing = Standing::Ended);
    }),
    unfit("17 clocks", &[LIMIT], |s| s.clocks = 17),
    unfit("255 clocks", &[LIMIT], |s| s.clocks = 255),
    unfit("17 accumulators", &[LIMIT], |s| s.accumulators = 17),
    unfit("255 accumulators", &[LIMIT], |s| s.accumulators = 255),
    unfit("a stack of 17 bodies", &[LIMIT, NOT_RUN, RISE], |s| {
        s.acts[0].depth = 17
    }),
    unfit("a stack of 255 bodies", &[LIMIT, NOT_RUN, RISE], |s| {
        s.acts[0].depth = 255
    }),
    unfit("phase 65,536", &[LIMIT], |s| {
        s.acts[0].holds[0].phase = 65_536
    }),
    unfit("phase 2^24", &[LIMIT], |s| {
        s.acts[1].holds[0].phase = 1 << 24
    }),
    unfit("one step more than the work", &[STEPS], |s| s.steps = 23),
    unfit("65,535 steps", &[STEPS], |s| s.steps = 65_535),
    unfit("65,536 steps", &[STEPS], |s| s.steps = 65_536),
    unfit("0 runs left", &[RUNS], |s| s.acts[0].frames[2].runs = 0),
    unfit("n plus 1 runs left", &[RUNS], |s| {
        s.acts[0].frames[2].runs = 4
    }),
    unfit("255 runs left", &[RUNS], |s| s.acts[0].frames[2].runs = 255),
    unfit("a place past the END", &[PLACE], |s| {
        s.acts[0].frames[2].offset = 2
    }),
    unfit("the last place of 16 bits", &[PLACE], |s| {
        s.acts[0].frames[2].offset = 65_535
    }),
    unfit("the k of an ATOM", &[PLACE], |s| place(s, 2)),
    unfit("the first command of an ATOM", &[PLACE], |s| place(s, 3)),
    unfit("the operand of a command of an ATOM", &[PLACE], |s| {
        place(s, 4)
    }),
    unfit("the second command of an ATOM", &[PLACE], |s| place(s, 5)),
    unfit("the place of a later body", &[PLACE], |s| place(s, 8)),
    unfit(
        "an operand of REPEAT below the top",
        &[PLACE, NOT_RUN],
        |s| {
            s.acts[0].frames[1].offset = 1;
            s.acts[0].frames[2].runs = 0;
        },
    ),
    unfit("running without a body", &[NO_BODY], |s| {
        s.acts[2].standing = Standing::Running
    }),
    unfit("main without a body", &[NO_BODY], |s| {
        s.acts[0].depth = 0;
        s.acts[0].frames = Default::default();
    }),
    unfit("at a meeting without a body", &[NO_BODY, MEETING], |s| {
        s.acts[2].standing = Standing::Meeting;
    }),
    unfit("ended with a body", &[ENDED], |s| {
        s.acts[2].depth = 1;
        s.acts[2].frames[0].body = 4;
    }),
    unfit("faulted with a body", &[ENDED], |s| {
        s.acts[2].standing = Standing::Faulted(Fault::NotOwner);
        s.acts[2].depth = 1;
        s.acts[2].frames[0].body = 4;
    }),
    unfit("ended with a clock", &[ENDED], |s| {
        s.acts[2].holds[7] = live(0)
    }),
    unfit("faulted with a clock", &[ENDED], |s| {
        s.acts[2].standing = Standing::Faulted(Fault::ClockNotHeld);
        s.acts[2].holds[0] = live(0);
    }),
    unfit("a stacked body that REPEAT does not run", &[NOT_RUN], |s| {
        s.acts[0].frames[2].body = 4;
    }),
    unfit("a stacked body that FINISH does not run", &[NOT_RUN], |s| {
        s.acts[0].depth = 2;
        s.acts[0].frames[1].body = 3;
        s.acts[0].frames[2] = Default::default();
    }),
    unfit("a body stacked on a CLOCK", &[NOT_RUN], |s| {
        s.acts[0].frames[0].offset = 0;
        s.acts[0].frames[1].first = 0;
    }),
    unfit(
        "a body stacked on the ASYNC that spawns it",
        &[NOT_RUN],
        |s| {
            s.acts[0].frames[0].offset = 5;
            s.acts[0].frames[1] = Default::default();
            s.acts[0].frames[1].body = 1;
            s.acts[0].frames[2] = Default::default();
            s.acts[0].depth = 2;
        },
    ),
    unfit("two names in one phase", &[TWO_NAMES], |s| {
        s.acts[0].holds[5] = s.acts[0].holds[0]
    }),
    unfit("two names in two phases", &[TWO_NAMES], |s| {
        s.acts[0].holds[7] = Hold {
            phase: 9,
            registration: Registration::Quiesced,
            ..live(0)
        };
    }),
    unfit("two names of one at a meeting", &[TWO_NAMES], |s| {
        s.acts[1].holds[1] = s.acts[1].holds[0];
    }),
    unfit("at a meeting on an ATOM", &[MEETING], |s| {
        s.acts[1].frames[0].offset = 1
    }),
    unfit("at a meeting on an END", &[MEETING], |s| {
        s.acts[0].frames[2].offset = 1;
        s.acts[0].standing = Standing::Meeting;
    }),
    unfit("the same body again on the stack", &[NOT_RUN, RISE], |s| {
        s.acts[0].frames[2].body = 2
    }),
    unfit("a lower body above a greater one", &[NOT_RUN, RISE], |s| {
        s.acts[0].frames[2].body = 1
    }),
    unfit("its own spawner", &[SPAWNER], |s| s.acts[1].spawner = 1),
    unfit("a later spawner", &[SPAWNER], |s| s.acts[1].spawner = 2),
    unfit("an ended one with a later spawner", &[SPAWNER], |s| {
        s.acts[2].spawner = 2
    }),
    unfit("an unspawned spawner", &[SPAWNER, UNMADE], |s| {
        s.acts[1].spawner = 3
    }),
    unfit("an unmade clock", &[UNMADE], |s| {
        s.acts[0].holds[0].clock = 1
    }),
    unfit("no clock made, one held", &[UNMADE], |s| s.clocks = 0),
    unfit("an unmade accumulator", &[UNMADE], |s| {
        s.acts[0].accumulators[3] = 2
    }),
    unfit("an unmade accumulator of an ended one", &[UNMADE], |s| {
        s.acts[2].accumulators[7] = 255;
    }),
    unfit("no accumulator made, one named", &[UNMADE], |s| {
        s.accumulators = 0
    }),
    unfit("an unspawned owner", &[UNMADE], |s| s.accs[0].owner = 3),
    unfit("a first above the activities", &[UNMADE], |s| {
        s.acts[0].frames[1].first = 4
    }),
    unfit("a body that is not there", &[PLACE, UNMADE], |s| {
        s.acts[1].standing = Standing::Running;
        s.acts[1].frames[0].body = 5;
    }),
    unfit("an unspawned hand", &[UNUSED], |s| s.acts[3].hand = 1),
    unfit("an unspawned hand of one high bit", &[UNUSED], |s| {
        s.acts[63].hand = 1 << 31
    }),
    unfit("an unspawned standing", &[UNUSED], |s| {
        s.acts[63].standing = Standing::Ended
    }),
    unfit("an unspawned spawner's number", &[UNUSED], |s| {
        s.acts[63].spawner = 1
    }),
    unfit("an unspawned depth", &[UNUSED], |s| s.acts[3].depth = 1),
    unfit("an unspawned accumulator name", &[UNUSED], |s| {
        s.acts[63].accumulators[7] = 1
    }),
    unfit("an unspawned hold", &[UNUSED], |s| {
        s.acts[63].holds[7] = live(0)
    }),
    unfit("an unspawned phase", &[UNUSED], |s| {
        s.acts[3].holds[0].phase = 1
    }),
    unfit("an unspawned body", &[UNUSED], |s| {
        s.acts[63].frames[15].first = 1
    }),
    unfit("a spawned one too few", &[UNMADE, UNUSED], |s| {
        s.activities = 2
    }),
    unfit("an unmade accumulator's value", &[UNUSED], |s| {
        s.accs[1].value = 1
    }),
    unfit("an unmade accumulator's owner", &[UNUSED], |s| {
        s.accs[15].owner = 1
    }),
    unfit("an unmade accumulator's operator", &[UNUSED], |s| {
        s.accs[15].operator = Operator::Maximum;
    }),
    unfit("a free name's phase", &[UNUSED], |s| {
        s.acts[0].holds[1].phase = 1
    }),
    unfit("a free name's clock", &[UNUSED], |s| {
        s.acts[0].holds[7].clock = 1
    }),
    unfit("a free name's phase of an ended one", &[UNUSED], |s| {
        s.acts[2].holds[0].phase = 1
    }),
    unfit("a place past the depth", &[UNUSED], |s| {
        s.acts[0].frames[3].offset = 1
    }),
    unfit("a body past the depth", &[UNUSED], |s| {
        s.acts[0].frames[15].body = 1
    }),
    unfit("runs past the depth", &[UNUSED], |s| {
        s.acts[1].frames[1].runs = 1
    }),
    unfit("a first past the depth", &[UNUSED], |s| {
        s.acts[2].frames[0].first = 1
    }),
    unfit("main's spawner", &[UNUSED], |s| s.acts[0].spawner = 1),
    unfit("runs of a lowest body", &[UNUSED], |s| {
        s.acts[0].frames[0].runs = 1
    }),
    unfit("a first of a lowest body", &[UNUSED], |s| {
        s.acts[1].frames[0].first = 1
    }),
    unfit("runs of a FINISH body", &[UNUSED], |s| {
        s.acts[0].frames[1].runs = 1
    }),
    unfit("a first of a REPEAT body", &[UNUSED], |s| {
        s.acts[0].frames[2].first = 1
    }),
    no_state("version 0", |b| b[0] = 0),
    no_state("version 2", |b| b[0] = 2),
    no_state("65,536 steps and no more", |b| b[6] = 1),
    no_state("a reserved byte of the whole", |b| b[15] = 1),
    no_state("a reserved byte of an accumulator", |b| {
        b[ACCUMULATORS_AT + 6] = 1
    }),
    no_state("a reserved byte of the last accumulator", |b| {
        b[ACTIVITIES_AT - 1] = 1
    }),
    no_state("operator 3", |b| b[ACCUMULATORS_AT + 5] = 3),
    no_state("standing 4", |b| b[at(1) + 4] = 4),
    no_state("a fault of one that runs", |b| b[at(0) + 5] = 1),
    no_state("a fault of one that ended", |b| b[at(2) + 5] = 7),
    no_state("faulted with fault 0", |b| b[at(2) + 4] = 3),
    no_state("fault 8 of one that ended", |b| b[at(2) + 5] = 8),
    no_state("faulted with fault 9", |b| {
        b[at(2) + 4] = 3;
        b[at(2) + 5] = 9;
    }),
    no_state("faulted with fault 255", |b| {
        b[at(2) + 4] = 3;
        b[at(2) + 5] = 255;
    }),
    no_state("registration 3", |b| b[at(1) + HOLDS_AT + 5] = 3),
    no_state("a reserved byte of a clock name", |b| {
        b[at(0) + HOLDS_AT + 7] = 1
    }),
    no_state("a phase's third byte", |b| b[at(0) + HOLDS_AT + 2] = 1),
    no_state("a reserved byte of a body", |b| {
        b[at(0) + FRAMES_AT + 5] = 1
    }),
    no_state("the last byte", |b| b[LENGTH - 1] = 1),
    no_state("a byte too few", |b| b.truncate(LENGTH - 1)),
    no_state("a byte too many", |b| b.push(0)),
    no_state("no byte", |b| b.clear()),
];
