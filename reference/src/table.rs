//! Reading tables and counting them: numbers 1 to 12.

use crate::answer::Refusal;

pub const MAX_TABLE: usize = 2048;
pub const MAX_BODIES: u8 = 16;
pub const MAX_ACTIVITIES: usize = 64;
pub const MAX_CLOCKS: usize = 16;
pub const MAX_ACCUMULATORS: usize = 16;
pub const MAX_WORK: u64 = 65_535;
pub const NAMES: usize = 8;
pub const CELLS: usize = 16;
const MAX_ATOM: u8 = 8;

/// How an accumulator reduces what is offered.
#[derive(Clone, Copy, Debug, Default, PartialEq, Eq)]
pub enum Operator {
    #[default]
    Sum,
    Minimum,
    Maximum,
}

impl Operator {
    pub fn from_byte(byte: u8) -> Option<Operator> {
        match byte {
            0 => Some(Operator::Sum),
            1 => Some(Operator::Minimum),
            2 => Some(Operator::Maximum),
            _ => None,
        }
    }

    pub fn byte(self) -> u8 {
        self as u8
    }

    /// What a new accumulator holds.
    pub fn neutral(self) -> u32 {
        match self {
            Operator::Sum | Operator::Maximum => 0,
            Operator::Minimum => u32::MAX,
        }
    }

    pub fn reduce(self, value: u32, offered: u32) -> u32 {
        match self {
            Operator::Sum => value.wrapping_add(offered),
            Operator::Minimum => value.min(offered),
            Operator::Maximum => value.max(offered),
        }
    }
}

/// The commands that may stand in an ATOM.
#[derive(Clone, Copy, Debug, PartialEq, Eq)]
pub enum CellCommand {
    Fetch(u8),
    Store(u8),
    Add(u8),
}

#[derive(Clone, Debug, PartialEq, Eq)]
pub enum Command {
    End,
    Next,
    Clock(u8),
    Resume(u8),
    Drop(u8),
    Async { body: u8, mask: u8 },
    Finish { body: u8 },
    Repeat { runs: u8, body: u8 },
    Acc { name: u8, operator: Operator },
    Offer(u8),
    Read(u8),
    Reset(u8),
    Put(u32),
    Cell(CellCommand),
    Atom(Vec<CellCommand>),
    Choose { body: u8 },
}

/// A command where it stands in its body.
#[derive(Clone, Debug, PartialEq, Eq)]
pub struct Place {
    pub command: Command,
    /// The place of the command after it.
    pub next: u16,
}

/// What the rules count in a body, each capped at the largest `u64`.
#[derive(Clone, Copy, Debug, Default, PartialEq, Eq)]
pub struct Counts {
    pub activities: u64,
    pub clocks: u64,
    pub accumulators: u64,
    pub work: u64,
}

impl Counts {
    fn plus(self, other: Counts) -> Counts {
        Counts {
            activities: self.activities.saturating_add(other.activities),
            clocks: self.clocks.saturating_add(other.clocks),
            accumulators: self.accumulators.saturating_add(other.accumulators),
            work: self.work.saturating_add(other.work),
        }
    }

    fn times(self, n: u8) -> Counts {
        let n = u64::from(n);
        Counts {
            activities: self.activities.saturating_mul(n),
            clocks: self.clocks.saturating_mul(n),
            accumulators: self.accumulators.saturating_mul(n),
            work: self.work.saturating_mul(n),
        }
    }
}

/// One body: its commands by place. Bytes inside a command are `None`.
#[derive(Clone, Debug, PartialEq, Eq)]
struct Body {
    places: Vec<Option<Place>>,
}

/// An accepted table.
#[derive(Clone, Debug, PartialEq, Eq)]
pub struct Table {
    bodies: Vec<Body>,
    /// The counts of each body.
    counted: Vec<Counts>,
}

impl Table {
    /// Reads a table, trying numbers 1 to 12 in order.
    pub fn read(bytes: &[u8]) -> Result<Table, Refusal> {
        let bodies = read_bodies(bytes)?;
        let counted = count_bodies(&bodies);
        check_counts(with_main(&counted))?;
        Ok(Table { bodies, counted })
    }

    /// The counts of body 0, main counted among the activities.
    pub fn counts(&self) -> Counts {
        with_main(&self.counted)
    }

    pub fn work(&self) -> u32 {
        self.counted[0].work as u32
    }

    /// The work of a body, capped; a body that nothing runs may have more than the table.
    pub fn body_work(&self, body: u8) -> u64 {
        self.counted[usize::from(body)].work
    }

    pub fn bodies(&self) -> usize {
        self.bodies.len()
    }

    /// The command at a place of a body, if one starts there.
    pub fn place(&self, body: u8, offset: u16) -> Option<&Place> {
        let body = self.bodies.get(usize::from(body))?;
        body.places.get(usize::from(offset))?.as_ref()
    }
}

/// The counts of a table that numbers 1 to 8 let pass, whatever 9 to 12 say.
pub fn count(bytes: &[u8]) -> Result<Counts, Refusal> {
    Ok(with_main(&count_bodies(&read_bodies(bytes)?)))
}

/// Numbers 1 to 8.
fn read_bodies(bytes: &[u8]) -> Result<Vec<Body>, Refusal> {
    if !(2..=MAX_TABLE).contains(&bytes.len()) {
        return Err(Refusal::TableLength);
    }
    let bodies = bytes[0];
    if bodies == 0 || bodies > MAX_BODIES {
        return Err(Refusal::BodyCount);
    }
    let mut rest = &bytes[1..];
    let mut read = Vec::with_capacity(usize::from(bodies));
    for body in 0..bodies {
        let (next, after) = read_body(rest, Scope { body, bodies })?;
        read.push(next);
        rest = after;
    }
    if !rest.is_empty() {
        return Err(Refusal::BytesFollow);
    }
    Ok(read)
}

/// The body being read and the number of bodies: they bound each `b`.
#[derive(Clone, Copy)]
struct Scope {
    body: u8,
    bodies: u8,
}

/// Reads one body to its first END; also gives the bytes after it.
fn read_body(bytes: &[u8], scope: Scope) -> Result<(Body, &[u8]), Refusal> {
    let mut places = Vec::new();
    let mut at = 0;
    loop {
        let (command, length) = read_command(&bytes[at..], scope)?;
        let ends = command == Command::End;
        let next = at + length;
        places.push(Some(Place {
            command,
            next: next as u16,
        }));
        places.resize(next, None);
        at = next;
        if ends {
            return Ok((Body { places }, &bytes[at..]));
        }
    }
}

/// A command as its own bytes give it: an ATOM has yet to gather the commands after it.
enum Single {
    Plain(Command),
    AtomOf(u8),
}

/// Reads a command and gives its length in bytes.
fn read_command(bytes: &[u8], scope: Scope) -> Result<(Command, usize), Refusal> {
    match read_single(bytes, scope)? {
        (Single::Plain(command), length) => Ok((command, length)),
        (Single::AtomOf(k), length) => read_atom(bytes, length, k, scope),
    }
}

/// Reads the k commands after ATOM; each is tried for 3 to 6 and then for 7.
fn read_atom(
    bytes: &[u8],
    mut at: usize,
    k: u8,
    scope: Scope,
) -> Result<(Command, usize), Refusal> {
    let mut commands = Vec::with_capacity(usize::from(k));
    for _ in 0..k {
        let (single, length) = read_single(&bytes[at..], scope)?;
        let Single::Plain(Command::Cell(command)) = single else {
            return Err(Refusal::AtomCommand);
        };
        commands.push(command);
        at += length;
    }
    Ok((Command::Atom(commands), at))
}

/// Numbers 3 to 6 for the command at the front of the bytes.
fn read_single(bytes: &[u8], scope: Scope) -> Result<(Single, usize), Refusal> {
    let Some((&code, rest)) = bytes.split_first() else {
        return Err(Refusal::TableCut);
    };
    let Some(length) = operand_bytes(code) else {
        return Err(Refusal::CommandByte);
    };
    let Some(operands) = rest.get(..length) else {
        return Err(Refusal::TableCut);
    };
    let single = if code == 0x10 {
        Single::AtomOf(atom_length(operands[0])?)
    } else {
        Single::Plain(plain_command(code, operands, scope)?)
    };
    Ok((single, 1 + length))
}

/// How many operand bytes follow a command byte; `None` above 11.
pub(crate) fn operand_bytes(code: u8) -> Option<usize> {
    match code {
        0x00 | 0x01 => Some(0),
        0x02..=0x04 | 0x06 | 0x09..=0x0B | 0x0D..=0x11 => Some(1),
        0x05 | 0x07 | 0x08 => Some(2),
        0x0C => Some(4),
        _ => None,
    }
}

/// Numbers 5 and 6 for a command with all its bytes.
fn plain_command(code: u8, operands: &[u8], scope: Scope) -> Result<Command, Refusal> {
    Ok(match (code, operands) {
        (0x00, _) => Command::End,
        (0x01, _) => Command::Next,
        (0x02, &[c]) => Command::Clock(name(c)?),
        (0x03, &[c]) => Command::Resume(name(c)?),
        (0x04, &[c]) => Command::Drop(name(c)?),
        (0x05, &[b, mask]) => Command::Async {
            body: named_body(b, scope)?,
            mask,
        },
        (0x06, &[b]) => Command::Finish {
            body: named_body(b, scope)?,
        },
        (0x07, &[runs, b]) => Command::Repeat {
            runs,
            body: named_body(b, scope)?,
        },
        (0x08, &[a, o]) => Command::Acc {
            name: name(a)?,
            operator: Operator::from_byte(o).ok_or(Refusal::OperandRange)?,
        },
        (0x09, &[a]) => Command::Offer(name(a)?),
        (0x0A, &[a]) => Command::Read(name(a)?),
        (0x0B, &[a]) => Command::Reset(name(a)?),
        (0x0C, &[v0, v1, v2, v3]) => Command::Put(u32::from_le_bytes([v0, v1, v2, v3])),
        (0x0D, &[d]) => Command::Cell(CellCommand::Fetch(cell(d)?)),
        (0x0E, &[d]) => Command::Cell(CellCommand::Store(cell(d)?)),
        (0x0F, &[d]) => Command::Cell(CellCommand::Add(cell(d)?)),
        (0x11, &[b]) => Command::Choose {
            body: named_body(b, scope)?,
        },
        _ => unreachable!("operand_bytes gave each command its operands"),
    })
}

/// A clock or accumulator name.
fn name(byte: u8) -> Result<u8, Refusal> {
    in_range(byte, usize::from(byte) < NAMES)
}

fn cell(byte: u8) -> Result<u8, Refusal> {
    in_range(byte, usize::from(byte) < CELLS)
}

fn atom_length(byte: u8) -> Result<u8, Refusal> {
    in_range(byte, (1..=MAX_ATOM).contains(&byte))
}

fn in_range(byte: u8, inside: bool) -> Result<u8, Refusal> {
    if inside {
        Ok(byte)
    } else {
        Err(Refusal::OperandRange)
    }
}

/// A body may name only bodies with a greater number.
fn named_body(byte: u8, scope: Scope) -> Result<u8, Refusal> {
    if byte > scope.body && byte < scope.bodies {
        Ok(byte)
    } else {
        Err(Refusal::BodyRange)
    }
}

/// The counts of each body. The last body is counted first, and each body once.
fn count_bodies(bodies: &[Body]) -> Vec<Counts> {
    let mut counted = vec![Counts::default(); bodies.len()];
    for (i, body) in bodies.iter().enumerate().rev() {
        counted[i] = count_body(body, &counted);
    }
    counted
}

/// The counts of body 0 with main.
fn with_main(counted: &[Counts]) -> Counts {
    let main = Counts {
        activities: 1,
        ..Counts::default()
    };
    counted[0].plus(main)
}

/// The counts of a body, given those of the bodies with a greater number.
fn count_body(body: &Body, counted: &[Counts]) -> Counts {
    body.places
        .iter()
        .flatten()
        .map(|place| count_command(&place.command, counted))
        .fold(Counts::default(), Counts::plus)
}

fn count_command(command: &Command, counted: &[Counts]) -> Counts {
    let one = Counts {
        work: 1,
        ..Counts::default()
    };
    match *command {
        Command::Next => Counts { work: 2, ..one },
        Command::Clock(_) => Counts { clocks: 1, ..one },
        Command::Acc { .. } => Counts {
            accumulators: 1,
            ..one
        },
        Command::Async { body, .. } => Counts {
            activities: 1,
            ..one
        }
        .plus(counted[usize::from(body)]),
        Command::Finish { body } | Command::Choose { body } => one.plus(counted[usize::from(body)]),
        Command::Repeat { runs, body } => one.plus(counted[usize::from(body)].times(runs)),
        _ => one,
    }
}

/// Numbers 9 to 12.
fn check_counts(counts: Counts) -> Result<(), Refusal> {
    if counts.activities > MAX_ACTIVITIES as u64 {
        Err(Refusal::ManyActivities)
    } else if counts.clocks > MAX_CLOCKS as u64 {
        Err(Refusal::ManyClocks)
    } else if counts.accumulators > MAX_ACCUMULATORS as u64 {
        Err(Refusal::ManyAccumulators)
    } else if counts.work > MAX_WORK {
        Err(Refusal::MuchWork)
    } else {
        Ok(())
    }
}
