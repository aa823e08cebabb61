//! What the calls of a run have shown so far of its hands and its CHOOSE steps.

use std::collections::BTreeSet;

use reference::table::{CellCommand, Command};

use super::call::Call;

/// A CHOOSE step: its activity, the body and place of each stacked body, and whether it ran its body.
/// An activity comes to the same places again only by a REPEAT.
type Chosen = (usize, Vec<(u8, u16)>, bool);

/// What a call adds.
pub enum Step {
    Chose(Chosen),
    Read(usize),
    SetHand(usize),
    Other,
}

impl Step {
    pub fn of(call: &Call) -> Step {
        let activity = call.activity;
        match call.command().filter(|_| call.answer == 0) {
            Some(Command::Choose { .. }) => Step::Chose(chosen(call)),
            Some(Command::Read(_)) => Step::Read(activity),
            Some(Command::Put(_) | Command::Cell(CellCommand::Fetch(_)) | Command::Atom(_)) => {
                Step::SetHand(activity)
            }
            _ => Step::Other,
        }
    }
}

fn chosen(call: &Call) -> Chosen {
    let stack = call.own().stack().iter();
    let places = stack.map(|frame| (frame.body, frame.offset)).collect();
    (call.activity, places, call.chooses())
}

/// The CHOOSE steps so far, and the activities whose hand comes from READ.
#[derive(Default)]
pub struct Past {
    chosen: BTreeSet<Chosen>,
    read: BTreeSet<usize>,
}

impl Past {
    pub fn enter(&mut self, step: Step) {
        match step {
            Step::Chose(chosen) => {
                self.chosen.insert(chosen);
            }
            Step::Read(activity) => {
                self.read.insert(activity);
            }
            Step::SetHand(activity) => {
                self.read.remove(&activity);
            }
            Step::Other => {}
        }
    }

    pub fn has_chosen(&self) -> bool {
        !self.chosen.is_empty()
    }

    /// Whether the activity's hand comes from READ.
    pub fn has_read(&self, activity: usize) -> bool {
        self.read.contains(&activity)
    }

    /// Whether the activity has run a CHOOSE body.
    pub fn ran(&self, activity: usize) -> bool {
        self.chosen.iter().any(|(i, _, ran)| *i == activity && *ran)
    }

    /// Whether the activity has skipped a CHOOSE body.
    pub fn skipped(&self, activity: usize) -> bool {
        self.chosen.iter().any(|(i, _, ran)| *i == activity && !ran)
    }

    /// Whether the same CHOOSE went the other way in another run of a REPEAT.
    pub fn otherwise(&self, call: &Call) -> bool {
        let (activity, places, ran) = chosen(call);
        self.chosen.contains(&(activity, places, !ran))
    }
}
