//! What the author of a table believes of the activity that comes to a command.

/// What the author believes of a clock name.
#[derive(Clone, Copy, PartialEq)]
pub enum Name {
    Free,
    Live,
    Quiesced,
}

/// What the author believes of an accumulator name.
#[derive(Clone, Copy, PartialEq)]
pub enum Binding {
    Unbound,
    Own,
    Inherited,
}

/// What the author believes of the activity that comes to a command.
#[derive(Clone)]
pub struct Context {
    pub clocks: [Name; 8],
    pub accumulators: [Binding; 8],
    pub in_finish: bool,
    /// How often this code runs.
    pub times: usize,
    /// Clock names that a repeated body, or one under a condition, leaves as it found them.
    pub kept: [bool; 8],
    /// Bodies nested so far, spawned ones too.
    pub nesting: usize,
}

impl Context {
    pub fn main() -> Context {
        Context {
            clocks: [Name::Free; 8],
            accumulators: [Binding::Unbound; 8],
            in_finish: false,
            times: 1,
            kept: [false; 8],
            nesting: 0,
        }
    }

    pub fn clock_names(&self, wanted: Name) -> Vec<u8> {
        (0..8u8)
            .filter(|&k| self.clocks[usize::from(k)] == wanted)
            .collect()
    }

    pub fn held_names(&self) -> Vec<u8> {
        (0..8u8)
            .filter(|&k| self.clocks[usize::from(k)] != Name::Free)
            .collect()
    }

    pub fn accumulator_names(&self, wanted: Binding) -> Vec<u8> {
        (0..8u8)
            .filter(|&k| self.accumulators[usize::from(k)] == wanted)
            .collect()
    }

    pub fn bound_names(&self) -> Vec<u8> {
        (0..8u8)
            .filter(|&k| self.accumulators[usize::from(k)] != Binding::Unbound)
            .collect()
    }

    /// A repeated body, or one under a condition, is to leave the clocks held here.
    pub fn keep_held(&mut self) {
        for name in self.held_names() {
            self.kept[usize::from(name)] = true;
        }
    }

    /// The context after a body that may or may not have run: clocks that it may have quiesced
    /// count as quiesced.
    pub fn doubt(&mut self, ran: &Context) {
        for name in ran.clock_names(Name::Quiesced) {
            self.clocks[usize::from(name)] = Name::Quiesced;
        }
    }

    /// The context of an activity spawned here with a mask.
    pub fn child(&self, mask: u8) -> Context {
        let mut child = self.clone();
        for k in 0..8 {
            child.clocks[k] = if mask >> k & 1 == 1 {
                Name::Live
            } else {
                Name::Free
            };
            if child.accumulators[k] == Binding::Own {
                child.accumulators[k] = Binding::Inherited;
            }
        }
        child.in_finish = false;
        child.kept = [false; 8];
        child.nesting += 1;
        child
    }
}
