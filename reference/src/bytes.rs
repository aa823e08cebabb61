//! The state as bytes, and the calls over such bytes.

use crate::answer::{Fault, Refusal};
use crate::calls;
use crate::rules::Sheet;
use crate::state::{Accumulator, Activity, Frame, Hold, Registration, Standing, State, MAX_PHASE};
use crate::table::{Operator, Table, MAX_ACTIVITIES, MAX_CLOCKS};

/// The length of an encoded state.
pub const LENGTH: usize = 13_776;

pub const CELLS_AT: usize = 16;
pub const ACCUMULATORS_AT: usize = 80;
pub const ACCUMULATOR_BYTES: usize = 24;
pub const ACTIVITIES_AT: usize = 464;
pub const ACTIVITY_BYTES: usize = 208;
/// Offsets within an activity.
pub const NAMES_AT: usize = 8;
pub const HOLDS_AT: usize = 16;
pub const FRAMES_AT: usize = 80;
pub const HOLD_BYTES: usize = 8;
pub const FRAME_BYTES: usize = 8;

const VERSION: u8 = 1;
const MAX_STEPS: u32 = 65_535;

/// The bytes of a state.
pub fn encode(state: &State) -> Vec<u8> {
    let mut out = Vec::with_capacity(LENGTH);
    out.extend([VERSION, state.activities, state.clocks, state.accumulators]);
    out.extend(state.steps.to_le_bytes());
    out.extend([0; 8]);
    for cell in state.cells {
        out.extend(cell.to_le_bytes());
    }
    for accumulator in &state.accs {
        encode_accumulator(accumulator, &mut out);
    }
    for activity in &state.acts {
        encode_activity(activity, &mut out);
    }
    out
}

fn encode_accumulator(accumulator: &Accumulator, out: &mut Vec<u8>) {
    out.extend(accumulator.value.to_le_bytes());
    out.extend([accumulator.owner, accumulator.operator.byte()]);
    out.extend([0; 18]);
}

fn encode_activity(activity: &Activity, out: &mut Vec<u8>) {
    let (standing, fault) = match activity.standing {
        Standing::Running => (0, 0),
        Standing::Meeting => (1, 0),
        Standing::Ended => (2, 0),
        Standing::Faulted(fault) => (3, fault.number()),
    };
    out.extend(activity.hand.to_le_bytes());
    out.extend([standing, fault, activity.spawner, activity.depth]);
    out.extend(activity.accumulators);
    for hold in &activity.holds {
        encode_hold(hold, out);
    }
    for frame in &activity.frames {
        encode_frame(frame, out);
    }
}

fn encode_hold(hold: &Hold, out: &mut Vec<u8>) {
    let registration = match hold.registration {
        Registration::Free => 0,
        Registration::Live => 1,
        Registration::Quiesced => 2,
    };
    out.extend(hold.phase.to_le_bytes());
    out.extend([hold.clock, registration, 0, 0]);
}

fn encode_frame(frame: &Frame, out: &mut Vec<u8>) {
    out.extend(frame.offset.to_le_bytes());
    out.extend([frame.body, frame.runs, frame.first, 0, 0, 0]);
}

/// The state that the bytes encode, if they encode one.
pub fn decode(bytes: &[u8]) -> Option<State> {
    if bytes.len() != LENGTH {
        return None;
    }
    let mut input = Input { bytes };
    let state = decode_state(&mut input)?;
    debug_assert!(input.bytes.is_empty());
    Some(state)
}

/// The bytes not yet decoded.
struct Input<'a> {
    bytes: &'a [u8],
}

impl Input<'_> {
    fn take<const N: usize>(&mut self) -> Option<[u8; N]> {
        let (front, rest) = self.bytes.split_first_chunk::<N>()?;
        self.bytes = rest;
        Some(*front)
    }

    fn byte(&mut self) -> Option<u8> {
        self.take::<1>().map(|[byte]| byte)
    }

    fn word(&mut self) -> Option<u32> {
        self.take().map(u32::from_le_bytes)
    }

    /// A number of four bytes with a limit.
    fn limited(&mut self, limit: u32) -> Option<u32> {
        self.word().filter(|&number| number <= limit)
    }

    /// Reserved bytes are 0.
    fn reserved<const N: usize>(&mut self) -> Option<()> {
        (self.take::<N>()? == [0; N]).then_some(())
    }
}

fn decode_state(input: &mut Input) -> Option<State> {
    if input.byte()? != VERSION {
        return None;
    }
    let mut state = State {
        activities: input.byte()?,
        clocks: input.byte()?,
        accumulators: input.byte()?,
        steps: input.limited(MAX_STEPS)?,
        ..State::default()
    };
    input.reserved::<8>()?;
    for cell in &mut state.cells {
        *cell = input.word()?;
    }
    for accumulator in &mut state.accs {
        *accumulator = decode_accumulator(input)?;
    }
    for activity in &mut state.acts {
        *activity = decode_activity(input)?;
    }
    Some(state)
}

fn decode_accumulator(input: &mut Input) -> Option<Accumulator> {
    let accumulator = Accumulator {
        value: input.word()?,
        owner: input.byte()?,
        operator: Operator::from_byte(input.byte()?)?,
    };
    input.reserved::<18>()?;
    Some(accumulator)
}

fn decode_activity(input: &mut Input) -> Option<Activity> {
    let mut activity = Activity {
        hand: input.word()?,
        standing: decode_standing(input.take()?)?,
        spawner: input.byte()?,
        depth: input.byte()?,
        accumulators: input.take()?,
        ..Activity::default()
    };
    for hold in &mut activity.holds {
        *hold = decode_hold(input)?;
    }
    for frame in &mut activity.frames {
        *frame = decode_frame(input)?;
    }
    Some(activity)
}

fn decode_standing([standing, fault]: [u8; 2]) -> Option<Standing> {
    match (standing, fault) {
        (0, 0) => Some(Standing::Running),
        (1, 0) => Some(Standing::Meeting),
        (2, 0) => Some(Standing::Ended),
        (3, fault) => Fault::from_number(fault).map(Standing::Faulted),
        _ => None,
    }
}

fn decode_hold(input: &mut Input) -> Option<Hold> {
    let hold = Hold {
        phase: input.limited(MAX_PHASE)?,
        clock: input.byte()?,
        registration: match input.byte()? {
            0 => Registration::Free,
            1 => Registration::Live,
            2 => Registration::Quiesced,
            _ => return None,
        },
    };
    input.reserved::<2>()?;
    Some(hold)
}

fn decode_frame(input: &mut Input) -> Option<Frame> {
    let frame = Frame {
        offset: u16::from_le_bytes(input.take()?),
        body: input.byte()?,
        runs: input.byte()?,
        first: input.byte()?,
    };
    input.reserved::<3>()?;
    Some(frame)
}

/// The start over bytes. A refused start gives the encoded state of zeros.
pub fn start(table: &[u8]) -> (u8, Vec<u8>) {
    let (number, state) = calls::start(table);
    (number, encode(&state))
}

/// The step over bytes. A refused step leaves them as they are.
pub fn step(table: &[u8], bytes: &mut [u8], activity: usize) -> u8 {
    let (table, mut state) = match table_and_state(table, bytes) {
        Ok(both) => both,
        Err(refusal) => return refusal.number(),
    };
    let answer = calls::step_on(&table, &mut state, activity);
    if crate::answer::accepted(answer) {
        bytes.copy_from_slice(&encode(&state));
    }
    answer
}

/// The ready set over bytes.
pub fn ready(table: &[u8], bytes: &[u8]) -> (u8, u64) {
    match table_and_state(table, bytes) {
        Ok((table, state)) => calls::ready_on(&table, &state),
        Err(refusal) => (refusal.number(), 0),
    }
}

/// How many activities an activity waits for, over bytes.
pub fn awaited(table: &[u8], bytes: &[u8], activity: usize) -> (u8, u8) {
    match table_and_state(table, bytes) {
        Ok((table, state)) => calls::awaited_on(&table, &state, activity),
        Err(refusal) => (refusal.number(), 0),
    }
}

/// The standing sheet over bytes.
pub fn registrations(table: &[u8], bytes: &[u8]) -> (u8, Sheet) {
    match table_and_state(table, bytes) {
        Ok((table, state)) => calls::registrations_on(&table, &state),
        Err(refusal) => (refusal.number(), [[0; MAX_CLOCKS]; MAX_ACTIVITIES]),
    }
}

/// Numbers 1 to 12, then 13 where the bytes encode no state.
fn table_and_state(table: &[u8], bytes: &[u8]) -> Result<(Table, State), Refusal> {
    let table = Table::read(table)?;
    let state = decode(bytes).ok_or(Refusal::UnfitState)?;
    Ok((table, state))
}
