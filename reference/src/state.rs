//! The state of a machine.

use crate::answer::Fault;
use crate::table::{Operator, CELLS, MAX_ACCUMULATORS, MAX_ACTIVITIES, NAMES};

/// The most bodies on a stack: bodies rise, and there are at most 16.
pub const MAX_DEPTH: usize = 16;
/// The last phase.
pub const MAX_PHASE: u32 = 65_535;

#[derive(Clone, Copy, Debug, Default, PartialEq, Eq)]
pub enum Standing {
    #[default]
    Running,
    /// It has arrived at a NEXT and has yet to pass.
    Meeting,
    Ended,
    Faulted(Fault),
}

/// How an activity stands to the clock under one of its names.
#[derive(Clone, Copy, Debug, Default, PartialEq, Eq)]
pub enum Registration {
    #[default]
    Free,
    Live,
    Quiesced,
}

/// A clock name of an activity.
#[derive(Clone, Copy, Debug, Default, PartialEq, Eq)]
pub struct Hold {
    pub phase: u32,
    pub clock: u8,
    pub registration: Registration,
}

impl Hold {
    pub fn is_held(&self) -> bool {
        self.registration != Registration::Free
    }
}

/// A body on a stack.
#[derive(Clone, Copy, Debug, Default, PartialEq, Eq)]
pub struct Frame {
    /// Bytes from the body's first command to the command it stands on.
    pub offset: u16,
    pub body: u8,
    /// For a body that a REPEAT runs, the runs left with the one under way; else 0.
    pub runs: u8,
    /// For a body that a FINISH runs, how many activities there were when it began; else 0.
    pub first: u8,
}

#[derive(Clone, Copy, Debug, Default, PartialEq, Eq)]
pub struct Activity {
    pub hand: u32,
    pub standing: Standing,
    /// 0 for main.
    pub spawner: u8,
    /// How many of the frames are in use.
    pub depth: u8,
    /// What stands under each accumulator name: 0 unbound, else the accumulator's number plus 1.
    pub accumulators: [u8; NAMES],
    pub holds: [Hold; NAMES],
    /// The lowest body first.
    pub frames: [Frame; MAX_DEPTH],
}

impl Activity {
    /// A faulted activity counts as ended.
    pub fn has_ended(&self) -> bool {
        matches!(self.standing, Standing::Ended | Standing::Faulted(_))
    }

    pub fn has_faulted(&self) -> bool {
        matches!(self.standing, Standing::Faulted(_))
    }

    /// The bodies on the stack, the lowest first.
    pub fn stack(&self) -> &[Frame] {
        &self.frames[..usize::from(self.depth).min(MAX_DEPTH)]
    }

    pub fn top(&self) -> Option<&Frame> {
        self.stack().last()
    }

    /// The number of the accumulator bound to a name.
    pub fn bound(&self, name: u8) -> Option<u8> {
        self.accumulators[usize::from(name)].checked_sub(1)
    }

    /// The clock names in use.
    pub fn held(&self) -> impl Iterator<Item = &Hold> {
        self.holds.iter().filter(|hold| hold.is_held())
    }
}

#[derive(Clone, Copy, Debug, Default, PartialEq, Eq)]
pub struct Accumulator {
    pub value: u32,
    /// The activity that made it.
    pub owner: u8,
    pub operator: Operator,
}

/// The default is the state of zeros.
#[derive(Clone, Debug, PartialEq, Eq)]
pub struct State {
    /// Activities spawned, main included.
    pub activities: u8,
    /// Clocks made.
    pub clocks: u8,
    /// Accumulators made.
    pub accumulators: u8,
    /// Steps taken.
    pub steps: u32,
    pub cells: [u32; CELLS],
    pub accs: [Accumulator; MAX_ACCUMULATORS],
    pub acts: [Activity; MAX_ACTIVITIES],
}

impl Default for State {
    fn default() -> State {
        State {
            activities: 0,
            clocks: 0,
            accumulators: 0,
            steps: 0,
            cells: [0; CELLS],
            accs: [Accumulator::default(); MAX_ACCUMULATORS],
            acts: [Activity::default(); MAX_ACTIVITIES],
        }
    }
}

impl State {
    /// The activities spawned so far.
    pub fn spawned(&self) -> &[Activity] {
        &self.acts[..usize::from(self.activities).min(MAX_ACTIVITIES)]
    }

    /// How many of the spawned activities have ended, faulted ones too.
    pub fn ended(&self) -> usize {
        self.spawned().iter().filter(|a| a.has_ended()).count()
    }

    /// Whether every spawned activity has ended.
    pub fn is_finished(&self) -> bool {
        self.spawned().iter().all(Activity::has_ended)
    }
}
