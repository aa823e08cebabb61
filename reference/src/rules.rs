//! The rules on accepted tables and fit states: numbers 14 to 17, and how many an activity waits for.
//!
//! Every function here relies on a state that is fit for its table.

use crate::answer::{Fault, Outcome, Refusal};
use crate::state::{Accumulator, Activity, Frame, Hold, Registration, Standing, State, MAX_PHASE};
use crate::table::{
    CellCommand, Command, Operator, Place, Table, MAX_ACCUMULATORS, MAX_ACTIVITIES, MAX_CLOCKS,
    NAMES,
};

/// By activity and clock number: 0 not held, 1 live, 2 quiesced.
pub type Sheet = [[u8; MAX_CLOCKS]; MAX_ACTIVITIES];

/// Activity 0 at the start of body 0; all else is 0.
pub fn start() -> State {
    let mut state = State {
        activities: 1,
        ..State::default()
    };
    state.acts[0].depth = 1;
    state
}

/// One step of an activity. A refused step changes nothing.
pub fn step(table: &Table, state: &mut State, activity: usize) -> Result<Outcome, Refusal> {
    let outcome = match prospect(table, state, activity)? {
        Prospect::Faults(fault) => Outcome::Faulted(fault),
        Prospect::Awaits(0) => Outcome::Stepped,
        Prospect::Awaits(_) => return Err(Refusal::Waits),
    };
    let place = current(table, &state.acts[activity]);
    let over = match outcome {
        Outcome::Faulted(_) => false,
        Outcome::Stepped => needs_more(state, activity, &place.command),
    };
    if over || state.steps >= table.work() {
        return Err(Refusal::OverLimit);
    }
    match outcome {
        Outcome::Faulted(fault) => end(&mut state.acts[activity], Standing::Faulted(fault)),
        Outcome::Stepped => perform(table, state, activity, place),
    }
    state.steps += 1;
    Ok(outcome)
}

/// The activities to which 14 to 16 do not apply.
pub fn ready(table: &Table, state: &State) -> u64 {
    (0..state.spawned().len())
        .filter(|&i| is_ready(table, state, i))
        .fold(0, |set, i| set | 1 << i)
}

/// Whether none of 14 to 16 applies to the activity.
pub fn is_ready(table: &Table, state: &State, activity: usize) -> bool {
    awaited(table, state, activity) == Ok(0)
}

/// Numbers 14 and 15, or how many activities this one waits for: 0 where 16 does not apply.
pub fn awaited(table: &Table, state: &State, activity: usize) -> Result<u8, Refusal> {
    match prospect(table, state, activity)? {
        Prospect::Faults(_) => Ok(0),
        Prospect::Awaits(count) => Ok(count),
    }
}

/// The work that a step of the activity spares: that of the body of a CHOOSE with hand 0.
pub fn spared(table: &Table, state: &State, activity: usize) -> u64 {
    let own = state.spawned().get(activity).filter(|a| !a.has_ended());
    match own.map(|own| (own.hand, &current(table, own).command)) {
        Some((0, &Command::Choose { body })) => table.body_work(body),
        _ => 0,
    }
}

/// The standing sheet.
pub fn registrations(state: &State) -> Sheet {
    let mut sheet = [[0; MAX_CLOCKS]; MAX_ACTIVITIES];
    for (row, activity) in sheet.iter_mut().zip(state.spawned()) {
        for hold in activity.held() {
            row[usize::from(hold.clock)] = match hold.registration {
                Registration::Free => 0,
                Registration::Live => 1,
                Registration::Quiesced => 2,
            };
        }
    }
    sheet
}

/// What is before an unended activity.
enum Prospect {
    Faults(Fault),
    /// It waits for so many; with 0 its command can be done.
    Awaits(u8),
}

/// Numbers 14 and 15, or what is before the activity. F1 to F7 come before waiting, F8 after it.
fn prospect(table: &Table, state: &State, activity: usize) -> Result<Prospect, Refusal> {
    let Some(own) = state.spawned().get(activity) else {
        return Err(Refusal::NotSpawned);
    };
    if own.has_ended() {
        return Err(Refusal::HasEnded);
    }
    let command = &current(table, own).command;
    Ok(match fault(table, state, activity, command) {
        Some(fault) => Prospect::Faults(fault),
        None if ends_finish(table, own, command) => finish_prospect(state, activity),
        None => Prospect::Awaits(awaited_at(state, activity, command)),
    })
}

/// The command that an unended activity stands on.
fn current<'t>(table: &'t Table, activity: &Activity) -> &'t Place {
    let top = activity.top().expect("an unended activity has a body");
    at(table, top)
}

/// The command that a stacked body stands on.
fn at<'t>(table: &'t Table, frame: &Frame) -> &'t Place {
    table
        .place(frame.body, frame.offset)
        .expect("a place is a command of its body")
}

/// The command that runs the top body, if another body does.
fn runner<'t>(table: &'t Table, activity: &Activity) -> Option<&'t Place> {
    let below = activity.stack().iter().rev().nth(1)?;
    Some(at(table, below))
}

// Faults

/// F1 to F7.
fn fault(table: &Table, state: &State, activity: usize, command: &Command) -> Option<Fault> {
    let own = &state.acts[activity];
    match *command {
        Command::Clock(c) => own.holds[usize::from(c)]
            .is_held()
            .then_some(Fault::NameHeld),
        Command::Resume(c) | Command::Drop(c) => {
            (!own.holds[usize::from(c)].is_held()).then_some(Fault::ClockNotHeld)
        }
        Command::Async { mask, .. } => async_fault(table, own, mask),
        Command::Offer(a) => own.bound(a).is_none().then_some(Fault::NameUnbound),
        Command::Read(a) | Command::Reset(a) => owner_fault(state, activity, a),
        _ => None,
    }
}

/// F3, then F1 for any clock of the mask, then F2 for any.
fn async_fault(table: &Table, own: &Activity, mask: u8) -> Option<Fault> {
    let any = |registration| masked(mask).any(|k| own.holds[k].registration == registration);
    if mask != 0 && in_own_finish(table, own) {
        Some(Fault::ClockInFinish)
    } else if any(Registration::Free) {
        Some(Fault::ClockNotHeld)
    } else if any(Registration::Quiesced) {
        Some(Fault::ClockQuiesced)
    } else {
        None
    }
}

/// The clock names in a mask.
fn masked(mask: u8) -> impl Iterator<Item = usize> {
    (0..NAMES).filter(move |k| mask >> k & 1 == 1)
}

/// Whether a FINISH runs some body on the activity's stack.
fn in_own_finish(table: &Table, own: &Activity) -> bool {
    let (_, below) = own
        .stack()
        .split_last()
        .expect("an unended activity has a body");
    below
        .iter()
        .any(|frame| matches!(at(table, frame).command, Command::Finish { .. }))
}

/// F5 to F7 for READ and RESET.
fn owner_fault(state: &State, activity: usize, name: u8) -> Option<Fault> {
    let own = &state.acts[activity];
    let Some(accumulator) = own.bound(name) else {
        return Some(Fault::NameUnbound);
    };
    if usize::from(state.accs[usize::from(accumulator)].owner) != activity {
        Some(Fault::NotOwner)
    } else if own.held().next().is_some() {
        Some(Fault::HoldsClock)
    } else {
        None
    }
}

// Waiting

/// How many activities this one waits for at a command that does not fault, except at the END of a
/// FINISH body.
fn awaited_at(state: &State, activity: usize, command: &Command) -> u8 {
    let own = &state.acts[activity];
    match command {
        Command::Next if own.standing == Standing::Meeting => holders_behind(state, own),
        Command::Read(_) | Command::Reset(_) => unended_below(state, activity),
        _ => 0,
    }
}

/// Whether the command ends a body that a FINISH runs.
fn ends_finish(table: &Table, own: &Activity, command: &Command) -> bool {
    let runs = |place: &Place| matches!(place.command, Command::Finish { .. });
    *command == Command::End && runner(table, own).is_some_and(runs)
}

/// At the END of a FINISH body: waiting for those inside that have not ended; then F8 where one
/// inside has faulted.
fn finish_prospect(state: &State, owner: usize) -> Prospect {
    let mut unended = 0;
    let mut faulted = false;
    for other in inside(state, owner) {
        unended += u8::from(!other.has_ended());
        faulted |= other.has_faulted();
    }
    if unended == 0 && faulted {
        Prospect::Faults(Fault::FaultInside)
    } else {
        Prospect::Awaits(unended)
    }
}

/// How many activities keep an own clock from being quiescent in the own phase on it. One that
/// does so on several clocks counts once, and one that is live at its own meeting counts itself.
fn holders_behind(state: &State, own: &Activity) -> u8 {
    let behind = |other: &&Activity| own.held().any(|hold| is_behind(other, hold));
    state.spawned().iter().filter(behind).count() as u8
}

/// Whether the activity holds this clock in an earlier phase, or live in this one.
fn is_behind(other: &Activity, own: &Hold) -> bool {
    other.held().any(|hold| {
        let live = hold.registration == Registration::Live;
        hold.clock == own.clock && (hold.phase < own.phase || hold.phase == own.phase && live)
    })
}

/// How many descendants have not ended.
fn unended_below(state: &State, activity: usize) -> u8 {
    let all = below(state, activity, 0);
    all.filter(|other| !other.has_ended()).count() as u8
}

/// The activities inside the finish of the top body, ended ones too.
fn inside(state: &State, owner: usize) -> impl Iterator<Item = &Activity> {
    let first = state.acts[owner].top().map_or(0, |frame| frame.first);
    below(state, owner, usize::from(first))
}

/// The activity's children numbered `first` or above and the descendants of these. Ended spawners
/// still link their children to the activity.
fn below(state: &State, activity: usize, first: usize) -> impl Iterator<Item = &Activity> {
    let mut family = 0u64;
    let numbered = state.spawned().iter().enumerate().skip(1);
    let related = numbered.filter(move |(i, other)| {
        let spawner = usize::from(other.spawner);
        let child = spawner == activity && *i >= first;
        let member = child || family >> spawner & 1 == 1;
        family |= u64::from(member) << i;
        member
    });
    related.map(|(_, other)| other)
}

// Limits

/// Whether the command needs a 65th activity, 17th clock or accumulator, or phase 65,536.
fn needs_more(state: &State, activity: usize, command: &Command) -> bool {
    let own = &state.acts[activity];
    match command {
        Command::Async { .. } => usize::from(state.activities) == MAX_ACTIVITIES,
        Command::Clock(_) => usize::from(state.clocks) == MAX_CLOCKS,
        Command::Acc { .. } => usize::from(state.accumulators) == MAX_ACCUMULATORS,
        Command::Next => {
            own.standing == Standing::Meeting && own.held().any(|hold| hold.phase == MAX_PHASE)
        }
        _ => false,
    }
}

// Effects

/// Does the command, which neither faults nor waits nor needs too much.
fn perform(table: &Table, state: &mut State, activity: usize, place: &Place) {
    match place.command {
        Command::End => return end_body(table, &mut state.acts[activity]),
        Command::Next => return meet(&mut state.acts[activity], place),
        Command::Finish { body } => return begin_finish(state, activity, body),
        Command::Repeat { runs, body } if runs > 0 => {
            return begin_repeat(&mut state.acts[activity], runs, body)
        }
        Command::Repeat { .. } => {}
        Command::Choose { body } if state.acts[activity].hand != 0 => {
            return begin_chosen(&mut state.acts[activity], body)
        }
        Command::Choose { .. } => {}
        Command::Clock(c) => make_clock(state, activity, c),
        Command::Resume(c) => {
            state.acts[activity].holds[usize::from(c)].registration = Registration::Quiesced;
        }
        Command::Drop(c) => state.acts[activity].holds[usize::from(c)] = Hold::default(),
        Command::Async { body, mask } => spawn(state, activity, body, mask),
        Command::Acc { name, operator } => make_accumulator(state, activity, name, operator),
        Command::Offer(a) => offer(state, activity, a),
        Command::Read(a) => state.acts[activity].hand = bound(state, activity, a).value,
        Command::Reset(a) => bound(state, activity, a).value = state.acts[activity].hand,
        Command::Put(value) => state.acts[activity].hand = value,
        Command::Cell(command) => use_cell(state, activity, command),
        Command::Atom(ref commands) => {
            for &command in commands {
                use_cell(state, activity, command);
            }
        }
    }
    go_on(&mut state.acts[activity], place);
}

/// Moves the top body to the command after this one.
fn go_on(own: &mut Activity, place: &Place) {
    top_mut(own).offset = place.next;
}

fn top_mut(own: &mut Activity) -> &mut Frame {
    &mut own.frames[usize::from(own.depth) - 1]
}

fn push(own: &mut Activity, frame: Frame) {
    own.frames[usize::from(own.depth)] = frame;
    own.depth += 1;
}

/// END: of the lowest body, of a FINISH or CHOOSE body, or of a run of a REPEAT body.
fn end_body(table: &Table, own: &mut Activity) {
    let Some(runner) = runner(table, own) else {
        return end(own, Standing::Ended);
    };
    let top = top_mut(own);
    if top.runs > 1 {
        top.runs -= 1;
        top.offset = 0;
    } else {
        *top = Frame::default();
        own.depth -= 1;
        go_on(own, runner);
    }
}

/// Ends an activity: it keeps its hand, its spawner and its accumulator names.
fn end(own: &mut Activity, standing: Standing) {
    own.standing = standing;
    own.depth = 0;
    own.frames = Default::default();
    own.holds = Default::default();
}

/// NEXT: arrival, then passing.
fn meet(own: &mut Activity, place: &Place) {
    if own.standing == Standing::Meeting {
        pass(own);
        go_on(own, place);
    } else {
        arrive(own);
    }
}

fn arrive(own: &mut Activity) {
    own.standing = Standing::Meeting;
    for hold in own.holds.iter_mut().filter(|hold| hold.is_held()) {
        hold.registration = Registration::Quiesced;
    }
}

fn pass(own: &mut Activity) {
    own.standing = Standing::Running;
    for hold in own.holds.iter_mut().filter(|hold| hold.is_held()) {
        hold.phase += 1;
        hold.registration = Registration::Live;
    }
}

fn begin_finish(state: &mut State, activity: usize, body: u8) {
    let first = state.activities;
    let frame = Frame {
        body,
        first,
        ..Frame::default()
    };
    push(&mut state.acts[activity], frame);
}

fn begin_repeat(own: &mut Activity, runs: u8, body: u8) {
    let frame = Frame {
        body,
        runs,
        ..Frame::default()
    };
    push(own, frame);
}

fn begin_chosen(own: &mut Activity, body: u8) {
    let frame = Frame {
        body,
        ..Frame::default()
    };
    push(own, frame);
}

fn make_clock(state: &mut State, activity: usize, name: u8) {
    state.acts[activity].holds[usize::from(name)] = Hold {
        phase: 0,
        clock: state.clocks,
        registration: Registration::Live,
    };
    state.clocks += 1;
}

/// The child gets the hand, all accumulator names and the clocks of the mask, live.
fn spawn(state: &mut State, activity: usize, body: u8, mask: u8) {
    let own = &state.acts[activity];
    let mut child = Activity {
        hand: own.hand,
        spawner: activity as u8,
        accumulators: own.accumulators,
        ..Activity::default()
    };
    for k in masked(mask) {
        child.holds[k] = Hold {
            registration: Registration::Live,
            ..own.holds[k]
        };
    }
    push(
        &mut child,
        Frame {
            body,
            ..Frame::default()
        },
    );
    state.acts[usize::from(state.activities)] = child;
    state.activities += 1;
}

fn make_accumulator(state: &mut State, activity: usize, name: u8, operator: Operator) {
    state.accs[usize::from(state.accumulators)] = Accumulator {
        value: operator.neutral(),
        owner: activity as u8,
        operator,
    };
    state.accumulators += 1;
    state.acts[activity].accumulators[usize::from(name)] = state.accumulators;
}

/// The accumulator bound to a name of the activity.
fn bound(state: &mut State, activity: usize, name: u8) -> &mut Accumulator {
    let number = state.acts[activity].bound(name).expect("the name is bound");
    &mut state.accs[usize::from(number)]
}

fn offer(state: &mut State, activity: usize, name: u8) {
    let hand = state.acts[activity].hand;
    let accumulator = bound(state, activity, name);
    accumulator.value = accumulator.operator.reduce(accumulator.value, hand);
}

fn use_cell(state: &mut State, activity: usize, command: CellCommand) {
    let hand = &mut state.acts[activity].hand;
    match command {
        CellCommand::Fetch(d) => *hand = state.cells[usize::from(d)],
        CellCommand::Store(d) => state.cells[usize::from(d)] = *hand,
        CellCommand::Add(d) => {
            let cell = &mut state.cells[usize::from(d)];
            *cell = cell.wrapping_add(*hand);
        }
    }
}
