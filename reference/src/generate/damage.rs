//! Damaged states.

use super::rng::Rng;
use crate::answer::Fault;
use crate::bytes::{
    decode, encode, ACCUMULATORS_AT, ACCUMULATOR_BYTES, ACTIVITIES_AT, ACTIVITY_BYTES, FRAMES_AT,
    FRAME_BYTES, HOLDS_AT, HOLD_BYTES, LENGTH,
};
use crate::state::{Activity, Frame, Hold, Registration, Standing, State, MAX_PHASE};
use crate::table::Operator;

/// How a state is damaged; `None` where there is nothing to damage in this way.
enum Change {
    Fields(fn(&mut State, &mut Rng) -> Option<()>),
    Bytes(fn(&mut [u8], &mut Rng) -> Option<()>),
    Length(fn(&mut Vec<u8>, &mut Rng)),
}

use Change::{Bytes, Fields, Length};

/// The damages aimed at one thing each. Some leave the state fit, though perhaps unreachable.
const DAMAGES: &[(&str, Change)] = &[
    ("too many activities", Fields(too_many_activities)),
    ("too many clocks", Fields(too_many_clocks)),
    ("too many accumulators", Fields(too_many_accumulators)),
    ("too deep", Fields(too_deep)),
    ("phase over its limit", Fields(phase_over_limit)),
    ("steps over their limit", Fields(steps_over_limit)),
    ("steps raised", Fields(steps_raised)),
    ("repeat without runs left", Fields(repeat_without_runs)),
    ("repeat with too many runs", Fields(repeat_with_many_runs)),
    ("runs changed", Fields(runs_changed)),
    ("runs of a body not repeated", Fields(runs_not_repeated)),
    ("place moved", Fields(place_moved)),
    ("place moved by one", Fields(place_moved_by_one)),
    ("unended without body", Fields(unended_without_body)),
    ("ended made running", Fields(ended_made_running)),
    ("ended with body", Fields(ended_with_body)),
    ("ended with clock", Fields(ended_with_clock)),
    ("unended made ended", Fields(unended_made_ended)),
    ("unended ended cleanly", Fields(unended_ended_cleanly)),
    ("unended faulted cleanly", Fields(unended_faulted_cleanly)),
    ("ended made faulted", Fields(ended_made_faulted)),
    ("stacked body changed", Fields(stacked_body_changed)),
    ("lowest body changed", Fields(lowest_body_changed)),
    ("stacked bodies swapped", Fields(stacked_bodies_swapped)),
    ("top body doubled", Fields(top_body_doubled)),
    ("top body removed", Fields(top_body_removed)),
    ("two names for one clock", Fields(two_names)),
    ("running made meeting", Fields(running_made_meeting)),
    ("meeting made running", Fields(meeting_made_running)),
    ("spawner not lower", Fields(spawner_not_lower)),
    ("spawner changed", Fields(spawner_changed)),
    ("main with spawner", Fields(main_with_spawner)),
    ("unmade clock", Fields(unmade_clock)),
    ("unmade accumulator", Fields(unmade_accumulator)),
    ("unmade owner", Fields(unmade_owner)),
    ("owner changed", Fields(owner_changed)),
    ("unmade body", Fields(unmade_body)),
    ("first above the activities", Fields(first_too_high)),
    ("first changed", Fields(first_changed)),
    ("first of a body not in finish", Fields(first_not_finish)),
    ("unspawned activity used", Fields(unspawned_used)),
    ("unmade accumulator used", Fields(unmade_accumulator_used)),
    ("free clock name used", Fields(free_name_used)),
    ("body past the depth used", Fields(past_depth_used)),
    ("one activity less", Fields(one_activity_less)),
    ("one activity more", Fields(one_activity_more)),
    ("one clock less", Fields(one_clock_less)),
    ("one accumulator less", Fields(one_accumulator_less)),
    ("one accumulator more", Fields(one_accumulator_more)),
    ("phase changed", Fields(phase_changed)),
    ("registration changed", Fields(registration_changed)),
    ("clock name freed", Fields(clock_name_freed)),
    ("binding changed", Fields(binding_changed)),
    ("operator changed", Fields(operator_changed)),
    ("numbers changed", Fields(numbers_changed)),
    ("no activity", Fields(no_activity)),
    ("version", Bytes(version)),
    ("reserved byte", Bytes(reserved_byte)),
    ("standing byte", Bytes(standing_byte)),
    ("fault byte", Bytes(fault_byte)),
    ("registration byte", Bytes(registration_byte)),
    ("operator byte", Bytes(operator_byte)),
    ("length", Length(length)),
    ("random bytes", Bytes(random_bytes)),
    ("random bits", Bytes(random_bits)),
];

/// The names of the damages.
pub fn damage_names() -> Vec<&'static str> {
    DAMAGES.iter().map(|(name, _)| *name).collect()
}

/// Damages an encoded state and gives the name of the damage.
pub fn damage_state(bytes: &mut Vec<u8>, rng: &mut Rng) -> &'static str {
    loop {
        let (name, change) = &DAMAGES[rng.below(DAMAGES.len())];
        if apply(change, bytes, rng).is_some() {
            return name;
        }
    }
}

/// Damages an encoded state in the named way; false where that is not possible.
pub fn damage_state_by(name: &str, bytes: &mut Vec<u8>, rng: &mut Rng) -> bool {
    DAMAGES
        .iter()
        .find(|(known, _)| *known == name)
        .is_some_and(|(_, change)| apply(change, bytes, rng).is_some())
}

fn apply(change: &Change, bytes: &mut Vec<u8>, rng: &mut Rng) -> Option<()> {
    match change {
        Bytes(damage) => damage(bytes, rng),
        Length(damage) => {
            damage(bytes, rng);
            Some(())
        }
        Fields(damage) => {
            let mut state = decode(bytes)?;
            damage(&mut state, rng)?;
            *bytes = encode(&state);
            Some(())
        }
    }
}

// Choosing what to damage

/// A spawned activity that satisfies the test.
fn activity<'s>(
    state: &'s mut State,
    rng: &mut Rng,
    test: impl Fn(&Activity) -> bool,
) -> Option<&'s mut Activity> {
    let spawned = state.spawned().iter().enumerate();
    let found: Vec<usize> = spawned.filter(|(_, a)| test(a)).map(|(i, _)| i).collect();
    rng.choose(&found).map(|i| &mut state.acts[i])
}

fn unended<'s>(state: &'s mut State, rng: &mut Rng) -> Option<&'s mut Activity> {
    activity(state, rng, |a| !a.has_ended())
}

fn ended<'s>(state: &'s mut State, rng: &mut Rng) -> Option<&'s mut Activity> {
    activity(state, rng, Activity::has_ended)
}

/// A body on a stack that satisfies the test; the test is also handed its height.
fn frame<'s>(
    state: &'s mut State,
    rng: &mut Rng,
    test: impl Fn(usize, &Frame) -> bool,
) -> Option<&'s mut Frame> {
    let matches = |a: &Activity| -> Vec<usize> {
        let stack = a.stack().iter().enumerate();
        stack.filter(|(d, f)| test(*d, f)).map(|(d, _)| d).collect()
    };
    let activity = activity(state, rng, |a| !matches(a).is_empty())?;
    let depth = rng.pick(&matches(activity));
    Some(&mut activity.frames[depth])
}

fn stacked<'s>(state: &'s mut State, rng: &mut Rng) -> Option<&'s mut Frame> {
    frame(state, rng, |depth, _| depth > 0)
}

/// A clock name of a spawned activity, held or free.
fn hold<'s>(state: &'s mut State, rng: &mut Rng, held: bool) -> Option<&'s mut Hold> {
    let matches = |a: &Activity| -> Vec<usize> {
        (0..a.holds.len())
            .filter(|&k| a.holds[k].is_held() == held)
            .collect()
    };
    let activity = activity(state, rng, |a| !matches(a).is_empty())?;
    let name = rng.pick(&matches(activity));
    Some(&mut activity.holds[name])
}

fn made_accumulator(state: &State, rng: &mut Rng) -> Option<usize> {
    let made = usize::from(state.accumulators).min(state.accs.len());
    (made > 0).then(|| rng.below(made))
}

/// Another byte than this one, most often near it.
fn other_byte(byte: u8, rng: &mut Rng) -> u8 {
    match rng.below(3) {
        0 => byte.wrapping_add(1),
        1 => byte.wrapping_sub(1),
        _ => byte.wrapping_add(rng.between(1, 255) as u8),
    }
}

fn above(limit: u8, rng: &mut Rng) -> u8 {
    if rng.chance(50) {
        limit + 1
    } else {
        rng.between(usize::from(limit) + 1, 255) as u8
    }
}

// Counts, phases, steps

fn too_many_activities(state: &mut State, rng: &mut Rng) -> Option<()> {
    state.activities = above(64, rng);
    Some(())
}

fn too_many_clocks(state: &mut State, rng: &mut Rng) -> Option<()> {
    state.clocks = above(16, rng);
    Some(())
}

fn too_many_accumulators(state: &mut State, rng: &mut Rng) -> Option<()> {
    state.accumulators = above(16, rng);
    Some(())
}

fn too_deep(state: &mut State, rng: &mut Rng) -> Option<()> {
    activity(state, rng, |_| true)?.depth = above(16, rng);
    Some(())
}

fn phase_over_limit(state: &mut State, rng: &mut Rng) -> Option<()> {
    hold(state, rng, true)?.phase = rng.pick(&[MAX_PHASE + 1, 1 << 20, u32::MAX]);
    Some(())
}

fn steps_over_limit(state: &mut State, rng: &mut Rng) -> Option<()> {
    state.steps = rng.pick(&[65_536, 1 << 24, u32::MAX]);
    Some(())
}

fn steps_raised(state: &mut State, rng: &mut Rng) -> Option<()> {
    state.steps = match rng.below(3) {
        0 => 65_535,
        1 => state.steps + 1,
        _ => state.steps + rng.below(40) as u32,
    };
    Some(())
}

// Stacks

fn repeat_without_runs(state: &mut State, rng: &mut Rng) -> Option<()> {
    frame(state, rng, |_, f| f.runs > 0)?.runs = 0;
    Some(())
}

fn repeat_with_many_runs(state: &mut State, rng: &mut Rng) -> Option<()> {
    let frame = frame(state, rng, |_, f| f.runs > 0)?;
    frame.runs = frame.runs.saturating_add(rng.pick(&[1, 4, 255]));
    Some(())
}

fn runs_changed(state: &mut State, rng: &mut Rng) -> Option<()> {
    let frame = frame(state, rng, |_, f| f.runs > 0)?;
    frame.runs = rng.between(1, 4) as u8;
    Some(())
}

fn runs_not_repeated(state: &mut State, rng: &mut Rng) -> Option<()> {
    frame(state, rng, |_, f| f.runs == 0)?.runs = rng.between(1, 3) as u8;
    Some(())
}

fn place_moved(state: &mut State, rng: &mut Rng) -> Option<()> {
    frame(state, rng, |_, _| true)?.offset = match rng.below(4) {
        0 => rng.word() as u16,
        1 => 2_047,
        _ => rng.below(30) as u16,
    };
    Some(())
}

fn place_moved_by_one(state: &mut State, rng: &mut Rng) -> Option<()> {
    let frame = frame(state, rng, |_, _| true)?;
    frame.offset = frame.offset.wrapping_add(rng.pick(&[1, u16::MAX]));
    Some(())
}

fn unended_without_body(state: &mut State, rng: &mut Rng) -> Option<()> {
    let activity = unended(state, rng)?;
    activity.depth = 0;
    if rng.chance(80) {
        activity.frames = Default::default();
    }
    Some(())
}

fn ended_made_running(state: &mut State, rng: &mut Rng) -> Option<()> {
    ended(state, rng)?.standing = rng.pick(&[Standing::Running, Standing::Meeting]);
    Some(())
}

fn ended_with_body(state: &mut State, rng: &mut Rng) -> Option<()> {
    let activity = ended(state, rng)?;
    activity.depth = 1;
    Some(())
}

fn ended_with_clock(state: &mut State, rng: &mut Rng) -> Option<()> {
    if state.clocks == 0 {
        return None;
    }
    let clock = rng.below(usize::from(state.clocks)) as u8;
    let name = rng.below(8);
    ended(state, rng)?.holds[name] = Hold {
        phase: rng.below(3) as u32,
        clock,
        registration: rng.pick(&[Registration::Live, Registration::Quiesced]),
    };
    Some(())
}

fn unended_made_ended(state: &mut State, rng: &mut Rng) -> Option<()> {
    unended(state, rng)?.standing = Standing::Ended;
    Some(())
}

/// Fit, though perhaps no run gets there.
fn unended_ended_cleanly(state: &mut State, rng: &mut Rng) -> Option<()> {
    end(unended(state, rng)?, Standing::Ended);
    Some(())
}

/// Fit too; a finish around it passes the fault on.
fn unended_faulted_cleanly(state: &mut State, rng: &mut Rng) -> Option<()> {
    let fault = rng.pick(&Fault::ALL);
    end(unended(state, rng)?, Standing::Faulted(fault));
    Some(())
}

/// Fit too.
fn ended_made_faulted(state: &mut State, rng: &mut Rng) -> Option<()> {
    let fault = rng.pick(&Fault::ALL);
    ended(state, rng)?.standing = Standing::Faulted(fault);
    Some(())
}

fn end(activity: &mut Activity, standing: Standing) {
    activity.standing = standing;
    activity.depth = 0;
    activity.frames = Default::default();
    activity.holds = Default::default();
}

fn stacked_body_changed(state: &mut State, rng: &mut Rng) -> Option<()> {
    let frame = stacked(state, rng)?;
    frame.body = other_byte(frame.body, rng) % 16;
    Some(())
}

fn lowest_body_changed(state: &mut State, rng: &mut Rng) -> Option<()> {
    let activity = unended(state, rng)?;
    activity.frames[0].body = rng.below(4) as u8;
    activity.frames[0].offset = 0;
    Some(())
}

fn stacked_bodies_swapped(state: &mut State, rng: &mut Rng) -> Option<()> {
    let activity = activity(state, rng, |a| a.stack().len() > 1)?;
    let depth = rng.between(1, activity.stack().len() - 1);
    activity.frames.swap(depth - 1, depth);
    Some(())
}

fn top_body_doubled(state: &mut State, rng: &mut Rng) -> Option<()> {
    let activity = activity(state, rng, |a| (1..16).contains(&a.stack().len()))?;
    let depth = activity.stack().len();
    activity.frames[depth] = activity.frames[depth - 1];
    activity.depth += 1;
    Some(())
}

/// Fit where something is left on the stack.
fn top_body_removed(state: &mut State, rng: &mut Rng) -> Option<()> {
    let activity = activity(state, rng, |a| !a.stack().is_empty())?;
    let depth = activity.stack().len();
    activity.frames[depth - 1] = Frame::default();
    activity.depth = depth as u8 - 1;
    Some(())
}

// Standings and spawners

fn running_made_meeting(state: &mut State, rng: &mut Rng) -> Option<()> {
    activity(state, rng, |a| a.standing == Standing::Running)?.standing = Standing::Meeting;
    Some(())
}

fn meeting_made_running(state: &mut State, rng: &mut Rng) -> Option<()> {
    activity(state, rng, |a| a.standing == Standing::Meeting)?.standing = Standing::Running;
    Some(())
}

fn child(state: &State, rng: &mut Rng) -> Option<usize> {
    let spawned = state.spawned().len();
    (spawned > 1).then(|| rng.between(1, spawned - 1))
}

fn spawner_not_lower(state: &mut State, rng: &mut Rng) -> Option<()> {
    let child = child(state, rng)?;
    state.acts[child].spawner = (child + rng.pick(&[0, 0, 1, 2, 100])) as u8;
    Some(())
}

fn spawner_changed(state: &mut State, rng: &mut Rng) -> Option<()> {
    let child = child(state, rng)?;
    state.acts[child].spawner = rng.below(child) as u8;
    Some(())
}

fn main_with_spawner(state: &mut State, rng: &mut Rng) -> Option<()> {
    state.acts[0].spawner = rng.between(1, 255) as u8;
    Some(())
}

// Things named

fn two_names(state: &mut State, rng: &mut Rng) -> Option<()> {
    let some_of_each = |a: &Activity| (1..8).contains(&a.held().count());
    let activity = activity(state, rng, some_of_each)?;
    let held: Vec<Hold> = activity.held().copied().collect();
    let mut again = rng.pick(&held);
    if rng.chance(50) {
        again.phase = rng.below(3) as u32;
        again.registration = rng.pick(&[Registration::Live, Registration::Quiesced]);
    }
    let free = activity.holds.iter_mut().find(|hold| !hold.is_held())?;
    *free = again;
    Some(())
}

fn unmade_clock(state: &mut State, rng: &mut Rng) -> Option<()> {
    let clock = state.clocks.saturating_add(rng.pick(&[0, 0, 1, 7, 200]));
    hold(state, rng, true)?.clock = clock;
    Some(())
}

fn unmade_accumulator(state: &mut State, rng: &mut Rng) -> Option<()> {
    let made = state.accumulators;
    let name = rng.below(8);
    let number = made.saturating_add(rng.pick(&[1, 1, 2, 16, 250]));
    activity(state, rng, |_| true)?.accumulators[name] = number;
    Some(())
}

fn unmade_owner(state: &mut State, rng: &mut Rng) -> Option<()> {
    let number = made_accumulator(state, rng)?;
    state.accs[number].owner = state.activities.saturating_add(rng.pick(&[0, 0, 1, 100]));
    Some(())
}

fn owner_changed(state: &mut State, rng: &mut Rng) -> Option<()> {
    let number = made_accumulator(state, rng)?;
    state.accs[number].owner = rng.below(state.spawned().len().max(1)) as u8;
    Some(())
}

fn unmade_body(state: &mut State, rng: &mut Rng) -> Option<()> {
    frame(state, rng, |_, _| true)?.body = rng.pick(&[15, 16, 17, 255]);
    Some(())
}

fn first_too_high(state: &mut State, rng: &mut Rng) -> Option<()> {
    let activities = state.activities;
    let first = activities.saturating_add(rng.pick(&[1, 1, 2, 250]));
    frame(state, rng, |_, f| f.first > 0)?.first = first;
    Some(())
}

/// Fit where it is not above the activities.
fn first_changed(state: &mut State, rng: &mut Rng) -> Option<()> {
    let first = rng.below(usize::from(state.activities) + 1) as u8;
    frame(state, rng, |_, f| f.first > 0)?.first = first;
    Some(())
}

fn first_not_finish(state: &mut State, rng: &mut Rng) -> Option<()> {
    frame(state, rng, |_, f| f.first == 0)?.first = 1;
    Some(())
}

// Unused entries

fn unspawned_used(state: &mut State, rng: &mut Rng) -> Option<()> {
    let spawned = state.spawned().len();
    let activity = state.acts[spawned..].iter_mut();
    let count = activity.len();
    let activity = activity.rev().nth((count > 0).then(|| rng.below(count))?)?;
    change_something(activity, rng);
    Some(())
}

fn change_something(activity: &mut Activity, rng: &mut Rng) {
    match rng.below(8) {
        0 => activity.hand = 1,
        1 => activity.standing = Standing::Ended,
        2 => activity.spawner = 1,
        3 => activity.depth = 1,
        4 => activity.accumulators[rng.below(8)] = 1,
        5 => activity.holds[rng.below(8)].phase = 1,
        6 => activity.holds[rng.below(8)].registration = Registration::Live,
        _ => activity.frames[rng.below(16)].offset = 1,
    }
}

fn unmade_accumulator_used(state: &mut State, rng: &mut Rng) -> Option<()> {
    let made = usize::from(state.accumulators);
    let accumulator = state.accs.get_mut(made..)?.iter_mut().next_back()?;
    match rng.below(3) {
        0 => accumulator.value = 1,
        1 => accumulator.owner = 1,
        _ => accumulator.operator = Operator::Minimum,
    }
    Some(())
}

fn free_name_used(state: &mut State, rng: &mut Rng) -> Option<()> {
    let hold = hold(state, rng, false)?;
    if rng.chance(50) {
        hold.phase = 1;
    } else {
        hold.clock = 1;
    }
    Some(())
}

fn past_depth_used(state: &mut State, rng: &mut Rng) -> Option<()> {
    let activity = activity(state, rng, |a| a.stack().len() < 16)?;
    let frame = &mut activity.frames[rng.between(activity.stack().len(), 15)];
    match rng.below(4) {
        0 => frame.offset = 1,
        1 => frame.body = 1,
        2 => frame.runs = 1,
        _ => frame.first = 1,
    }
    Some(())
}

// Counts changed by one

fn one_activity_less(state: &mut State, _: &mut Rng) -> Option<()> {
    state.activities = state.activities.checked_sub(1)?;
    Some(())
}

fn one_activity_more(state: &mut State, _: &mut Rng) -> Option<()> {
    state.activities = state.activities.checked_add(1)?;
    Some(())
}

fn one_clock_less(state: &mut State, _: &mut Rng) -> Option<()> {
    state.clocks = state.clocks.checked_sub(1)?;
    Some(())
}

fn one_accumulator_less(state: &mut State, _: &mut Rng) -> Option<()> {
    state.accumulators = state.accumulators.checked_sub(1)?;
    Some(())
}

/// Fit, as an accumulator of main that holds 0 and sums, where fewer than 16 are made.
fn one_accumulator_more(state: &mut State, _: &mut Rng) -> Option<()> {
    state.accumulators = state.accumulators.checked_add(1)?;
    Some(())
}

// Changes that leave the state fit

fn phase_changed(state: &mut State, rng: &mut Rng) -> Option<()> {
    let hold = hold(state, rng, true)?;
    hold.phase = match rng.below(3) {
        0 => MAX_PHASE,
        1 => hold.phase.saturating_sub(1),
        _ => rng.below(4) as u32,
    };
    Some(())
}

fn registration_changed(state: &mut State, rng: &mut Rng) -> Option<()> {
    let hold = hold(state, rng, true)?;
    hold.registration = match hold.registration {
        Registration::Live => Registration::Quiesced,
        _ => Registration::Live,
    };
    Some(())
}

fn clock_name_freed(state: &mut State, rng: &mut Rng) -> Option<()> {
    *hold(state, rng, true)? = Hold::default();
    Some(())
}

fn binding_changed(state: &mut State, rng: &mut Rng) -> Option<()> {
    let number = rng.below(usize::from(state.accumulators) + 1) as u8;
    let name = rng.below(8);
    activity(state, rng, |_| true)?.accumulators[name] = number;
    Some(())
}

fn operator_changed(state: &mut State, rng: &mut Rng) -> Option<()> {
    let number = made_accumulator(state, rng)?;
    state.accs[number].operator = rng.pick(&[Operator::Sum, Operator::Minimum, Operator::Maximum]);
    Some(())
}

fn numbers_changed(state: &mut State, rng: &mut Rng) -> Option<()> {
    let random = rng.word() as u32;
    let value = rng.pick(&[0, 1, u32::MAX, random]);
    match rng.below(3) {
        0 => state.cells[rng.below(16)] = value,
        1 => activity(state, rng, |_| true)?.hand = value,
        _ => {
            let number = made_accumulator(state, rng)?;
            state.accs[number].value = value;
        }
    }
    Some(())
}

/// Fit where no clause but counts and steps could be broken.
fn no_activity(state: &mut State, rng: &mut Rng) -> Option<()> {
    let kept = if rng.chance(50) { state.clocks } else { 0 };
    *state = State {
        clocks: kept,
        steps: if rng.chance(50) { state.steps } else { 0 },
        cells: state.cells,
        ..State::default()
    };
    Some(())
}

// Bytes that encode no state

fn version(bytes: &mut [u8], rng: &mut Rng) -> Option<()> {
    *bytes.first_mut()? = rng.pick(&[0, 2, 255]);
    Some(())
}

/// The reserved bytes of the layout.
fn reserved_places(rng: &mut Rng) -> usize {
    let accumulator = ACCUMULATORS_AT + ACCUMULATOR_BYTES * rng.below(16);
    let activity = ACTIVITIES_AT + ACTIVITY_BYTES * rng.below(64);
    match rng.below(4) {
        0 => 8 + rng.below(8),
        1 => accumulator + 6 + rng.below(18),
        2 => activity + HOLDS_AT + HOLD_BYTES * rng.below(8) + 6 + rng.below(2),
        _ => activity + FRAMES_AT + FRAME_BYTES * rng.below(16) + 5 + rng.below(3),
    }
}

fn reserved_byte(bytes: &mut [u8], rng: &mut Rng) -> Option<()> {
    *bytes.get_mut(reserved_places(rng))? = rng.between(1, 255) as u8;
    Some(())
}

fn standing_byte(bytes: &mut [u8], rng: &mut Rng) -> Option<()> {
    let at = ACTIVITIES_AT + ACTIVITY_BYTES * some_entry(bytes, rng) + 4;
    *bytes.get_mut(at)? = rng.pick(&[3, 4, 5, 255]);
    Some(())
}

fn fault_byte(bytes: &mut [u8], rng: &mut Rng) -> Option<()> {
    let at = ACTIVITIES_AT + ACTIVITY_BYTES * some_entry(bytes, rng) + 5;
    *bytes.get_mut(at)? = rng.pick(&[0, 1, 7, 8, 9, 255]);
    Some(())
}

fn registration_byte(bytes: &mut [u8], rng: &mut Rng) -> Option<()> {
    let activity = ACTIVITIES_AT + ACTIVITY_BYTES * some_entry(bytes, rng);
    let at = activity + HOLDS_AT + HOLD_BYTES * rng.below(8) + 5;
    *bytes.get_mut(at)? = rng.pick(&[3, 4, 255]);
    Some(())
}

fn operator_byte(bytes: &mut [u8], rng: &mut Rng) -> Option<()> {
    let at = ACCUMULATORS_AT + ACCUMULATOR_BYTES * rng.below(16) + 5;
    *bytes.get_mut(at)? = rng.pick(&[3, 4, 255]);
    Some(())
}

/// An activity entry, most often one in use.
fn some_entry(bytes: &[u8], rng: &mut Rng) -> usize {
    let spawned = usize::from(bytes.get(1).copied().unwrap_or(0)).clamp(1, 64);
    if rng.chance(80) {
        rng.below(spawned)
    } else {
        rng.below(64)
    }
}

fn length(bytes: &mut Vec<u8>, rng: &mut Rng) {
    let wanted = rng.pick(&[0, 1, LENGTH - 1, LENGTH + 1, LENGTH - 208, LENGTH + 208]);
    bytes.resize(wanted, 0);
}

/// Bytes near the front and in the first activities are hit most.
fn any_place(bytes: &[u8], rng: &mut Rng) -> Option<usize> {
    let reach = rng.pick(&[16, 464, 464 + 208, 464 + 3 * 208, LENGTH]);
    let reach = reach.min(bytes.len());
    (reach > 0).then(|| rng.below(reach))
}

fn random_bytes(bytes: &mut [u8], rng: &mut Rng) -> Option<()> {
    for _ in 0..rng.between(1, 3) {
        let at = any_place(bytes, rng)?;
        bytes[at] = other_byte(bytes[at], rng);
    }
    Some(())
}

fn random_bits(bytes: &mut [u8], rng: &mut Rng) -> Option<()> {
    for _ in 0..rng.between(1, 2) {
        let at = any_place(bytes, rng)?;
        bytes[at] ^= 1 << rng.below(8);
    }
    Some(())
}
