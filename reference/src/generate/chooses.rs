//! Code with bodies under a condition.

use super::author::Author;
use super::codes::*;
use super::context::{Binding, Context};

/// What the author believes of the hand at a CHOOSE.
#[derive(Clone, Copy, PartialEq)]
pub enum Hand {
    Zero,
    Other,
    Unknown,
}

impl Author<'_> {
    /// CHOOSE of a new body, most often after a command that sets the hand, or in a REPEAT.
    pub fn write_choose(&mut self, code: &mut Vec<u8>, context: &mut Context) {
        match self.rng.below(10) {
            0 | 1 if 4 * context.times <= 60 => self.write_rounds(code, context),
            2..=4 => self.write_chosen(code, context, Hand::Unknown),
            _ => {
                let hand = self.write_hand(code, context);
                self.write_chosen(code, context, hand);
            }
        }
    }

    /// In a few tables main's first command is a CHOOSE.
    pub fn open_with_choose(&mut self, code: &mut Vec<u8>, context: &mut Context) {
        if self.rng.chance(4) {
            self.write_chosen(code, context, Hand::Zero);
        }
    }

    /// CHOOSE of a new body. One that may run or not leaves the clock names as it found them.
    pub fn write_chosen(&mut self, code: &mut Vec<u8>, context: &mut Context, hand: Hand) {
        let mut inner = context.clone();
        inner.nesting += 1;
        if hand == Hand::Unknown {
            inner.keep_held();
        }
        let before = inner.clone();
        let body = self.new_body(&mut inner, |author, code, number, inner| {
            author.write_commands(code, number, inner);
            if hand == Hand::Unknown {
                author.restore(code, &before, inner);
            }
        });
        let Some(b) = body else {
            return;
        };
        code.extend([CHOOSE, b]);
        match hand {
            Hand::Zero => {}
            Hand::Unknown => context.doubt(&inner),
            Hand::Other => {
                context.clocks = inner.clocks;
                context.accumulators = inner.accumulators;
            }
        }
    }

    /// A REPEAT in which a CHOOSE skips its body in one run and runs it in another.
    fn write_rounds(&mut self, code: &mut Vec<u8>, context: &mut Context) {
        let n = self.rng.between(2, 4);
        let first = self.rng.below(2) as u8;
        let cell = self.rng.below(16) as u8;
        let in_cell = self.rng.chance(40);
        code.extend([PUT, first, 0, 0, 0]);
        if in_cell {
            code.extend([STORE, cell]);
        }
        self.write_repeat_of(code, context, n, |author, code, _, inner| {
            if in_cell {
                code.extend([FETCH, cell]);
            }
            author.write_chosen(code, inner, Hand::Unknown);
            code.extend([PUT, 1 - first, 0, 0, 0]);
            if in_cell {
                code.extend([STORE, cell]);
            }
        });
    }

    /// A command that sets the hand, and what the hand then is.
    fn write_hand(&mut self, code: &mut Vec<u8>, context: &mut Context) -> Hand {
        match self.rng.below(8) {
            0 | 1 => {
                code.extend([PUT, 0, 0, 0, 0]);
                Hand::Zero
            }
            2..=4 => {
                let value = 1u32 << self.rng.below(32);
                code.push(PUT);
                code.extend(value.to_le_bytes());
                Hand::Other
            }
            5 => {
                code.extend([FETCH, self.rng.low(3, 16) as u8]);
                Hand::Unknown
            }
            _ => self.write_read_hand(code, context),
        }
    }

    /// READ of an own accumulator, perhaps after an offer; nothing where a clock is held.
    fn write_read_hand(&mut self, code: &mut Vec<u8>, context: &mut Context) -> Hand {
        if context.accumulator_names(Binding::Own).is_empty() {
            self.write_acc(code, context);
        }
        let own = context.accumulator_names(Binding::Own);
        let Some(name) = self.rng.choose(&own) else {
            return Hand::Unknown;
        };
        if self.rng.chance(50) {
            self.write_put(code);
            code.extend([OFFER, name]);
        }
        if context.held_names().is_empty() {
            code.extend([READ, name]);
        }
        Hand::Unknown
    }
}
