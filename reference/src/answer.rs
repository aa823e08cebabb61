//! What calls answer: a step, a fault, or a refusal, each with its number.

/// Why a call is turned down; the value is the number of the paper.
#[derive(Clone, Copy, Debug, PartialEq, Eq)]
#[repr(u8)]
pub enum Refusal {
    TableLength = 1,
    BodyCount = 2,
    CommandByte = 3,
    TableCut = 4,
    OperandRange = 5,
    BodyRange = 6,
    AtomCommand = 7,
    BytesFollow = 8,
    ManyActivities = 9,
    ManyClocks = 10,
    ManyAccumulators = 11,
    MuchWork = 12,
    UnfitState = 13,
    NotSpawned = 14,
    HasEnded = 15,
    Waits = 16,
    OverLimit = 17,
    ShortBuffer = 18,
}

impl Refusal {
    pub fn number(self) -> u8 {
        self as u8
    }
}

/// How an activity goes wrong; the value is the f of Ff.
#[derive(Clone, Copy, Debug, PartialEq, Eq)]
#[repr(u8)]
pub enum Fault {
    /// RESUME, DROP or ASYNC of a clock not held.
    ClockNotHeld = 1,
    /// ASYNC of a held clock already quiesced.
    ClockQuiesced = 2,
    /// ASYNC with a mask that is not 0 while in an own FINISH body.
    ClockInFinish = 3,
    /// CLOCK on a held name.
    NameHeld = 4,
    /// OFFER, READ or RESET of an unbound name.
    NameUnbound = 5,
    /// READ or RESET of another's accumulator.
    NotOwner = 6,
    /// READ or RESET while holding a clock.
    HoldsClock = 7,
    /// END of a FINISH body when all inside have ended and one of them has faulted.
    FaultInside = 8,
}

impl Fault {
    pub const ALL: [Fault; 8] = [
        Fault::ClockNotHeld,
        Fault::ClockQuiesced,
        Fault::ClockInFinish,
        Fault::NameHeld,
        Fault::NameUnbound,
        Fault::NotOwner,
        Fault::HoldsClock,
        Fault::FaultInside,
    ];

    /// The f of Ff, 1 to 8.
    pub fn number(self) -> u8 {
        self as u8
    }

    pub fn from_number(number: u8) -> Option<Fault> {
        Fault::ALL.into_iter().find(|f| f.number() == number)
    }
}

/// An accepted step: it did its command, or it faulted.
#[derive(Clone, Copy, Debug, PartialEq, Eq)]
pub enum Outcome {
    Stepped,
    Faulted(Fault),
}

/// The number of a step's answer: 0, 100 plus f, or the refusal's number.
pub fn number(answer: Result<Outcome, Refusal>) -> u8 {
    match answer {
        Ok(Outcome::Stepped) => 0,
        Ok(Outcome::Faulted(fault)) => 100 + fault.number(),
        Err(refusal) => refusal.number(),
    }
}

/// Whether a step with this answer was accepted.
pub fn accepted(number: u8) -> bool {
    number == 0 || number > 100
}
