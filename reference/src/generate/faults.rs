//! Code that leads an activity into a fault.

use super::author::Author;
use super::codes::*;
use super::context::{Binding, Context, Name};

/// The most bodies that the code of a fault needs; F8 makes do with fewer than it could use.
pub fn fault_bodies(fault: u8) -> usize {
    match fault {
        8 => 10,
        3 => 4,
        _ => 3,
    }
}

impl Author<'_> {
    /// The fault's code here, in a spawned body, a FINISH body, a REPEAT body or a CHOOSE body.
    pub fn write_fault_somewhere(&mut self, code: &mut Vec<u8>, context: &mut Context, fault: u8) {
        let depth = self.rng.below(5);
        if depth == 0 || self.activities > 60 {
            return self.write_fault(code, context, fault);
        }
        let mask = self.live_mask(context);
        let mut inner = match depth {
            1 => context.child(mask),
            _ => context.clone(),
        };
        inner.in_finish |= depth == 2;
        let body = self.new_body(&mut inner, |author, code, _, inner| {
            author.write_plain(code);
            author.write_fault(code, inner, fault);
        });
        let Some(b) = body else {
            return;
        };
        match depth {
            1 => {
                self.activities += 1;
                code.extend([ASYNC, b, mask]);
            }
            2 => code.extend([FINISH, b]),
            3 => code.extend([PUT, 1, 0, 0, 0, CHOOSE, b]),
            _ => {
                let runs = self.rng.between(1, 2) as u8;
                code.extend([REPEAT, runs, b]);
            }
        }
    }

    pub fn write_fault(&mut self, code: &mut Vec<u8>, context: &mut Context, fault: u8) {
        match fault {
            1 => self.write_unheld_clock(code, context),
            2 => self.write_quiesced_clock(code, context),
            3 => self.write_clock_in_finish(code, context),
            4 => self.write_clock_twice(code, context),
            5 => self.write_unbound_name(code, context),
            6 => self.write_inherited_read(code, context),
            7 => self.write_read_with_clock(code, context),
            _ => self.write_passed_on(code, context),
        }
    }

    fn write_unheld_clock(&mut self, code: &mut Vec<u8>, context: &mut Context) {
        let Some(name) = self.rng.choose(&context.clock_names(Name::Free)) else {
            return;
        };
        match self.rng.below(3) {
            0 => code.extend([RESUME, name]),
            1 => code.extend([DROP, name]),
            _ => {
                // A mask with a free name, perhaps a quiesced one, and perhaps others.
                let quiesced = self.write_resumed(code, context);
                let mask = 1 << name | quiesced | self.rng.byte() & self.rng.byte();
                self.write_async_masked(code, context, mask);
            }
        }
    }

    /// RESUME of a held name, in some cases; gives its mask.
    fn write_resumed(&mut self, code: &mut Vec<u8>, context: &mut Context) -> u8 {
        let name = self.rng.choose(&context.held_names());
        let Some(name) = name.filter(|_| self.rng.chance(50)) else {
            return 0;
        };
        code.extend([RESUME, name]);
        1 << name
    }

    /// ASYNC of a short new body with this mask.
    pub fn write_async_masked(&mut self, code: &mut Vec<u8>, context: &mut Context, mask: u8) {
        let mut child = context.child(mask);
        let body = self.new_body(&mut child, |author, code, _, child| {
            author.write_next(code, child);
        });
        if let Some(b) = body {
            self.activities += 1;
            code.extend([ASYNC, b, mask]);
        }
    }

    fn write_quiesced_clock(&mut self, code: &mut Vec<u8>, context: &mut Context) {
        if context.held_names().is_empty() {
            self.write_clock(code, context);
        }
        if let Some(name) = self.rng.choose(&context.held_names()) {
            code.extend([RESUME, name]);
            self.write_async_masked(code, context, 1 << name);
        }
    }

    /// Any mask but 0: the fault comes before that of a clock not held.
    fn write_clock_in_finish(&mut self, code: &mut Vec<u8>, context: &mut Context) {
        let mask = (1 << self.rng.below(8)) | self.rng.byte() & self.rng.byte();
        if context.in_finish {
            return self.write_async_masked(code, context, mask);
        }
        let mut inner = context.clone();
        inner.in_finish = true;
        let chosen = self.rng.chance(30);
        let body = self.new_body(&mut inner, |author, code, _, inner| {
            if chosen {
                author.write_chosen_async(code, inner, mask);
            } else {
                author.write_async_masked(code, inner, mask);
            }
        });
        if let Some(b) = body {
            code.extend([FINISH, b]);
        }
    }

    /// ASYNC with this mask in the body of a CHOOSE that runs it.
    fn write_chosen_async(&mut self, code: &mut Vec<u8>, context: &mut Context, mask: u8) {
        let body = self.new_body(context, |author, code, _, context| {
            author.write_async_masked(code, context, mask);
        });
        if let Some(b) = body {
            code.extend([PUT, 0, 0, 0, 1, CHOOSE, b]);
        }
    }

    fn write_clock_twice(&mut self, code: &mut Vec<u8>, context: &mut Context) {
        if context.held_names().is_empty() {
            self.write_clock(code, context);
        }
        if let Some(name) = self.rng.choose(&context.held_names()) {
            code.extend([CLOCK, name]);
        }
    }

    fn write_unbound_name(&mut self, code: &mut Vec<u8>, context: &mut Context) {
        let unbound = context.accumulator_names(Binding::Unbound);
        if let Some(name) = self.rng.choose(&unbound) {
            code.extend([self.rng.pick(&[OFFER, READ, RESET]), name]);
        }
    }

    fn write_inherited_read(&mut self, code: &mut Vec<u8>, context: &mut Context) {
        let command = self.rng.pick(&[READ, RESET]);
        let inherited = context.accumulator_names(Binding::Inherited);
        if let Some(name) = self.rng.choose(&inherited) {
            return code.extend([command, name]);
        }
        if context.accumulator_names(Binding::Own).is_empty() {
            self.write_acc(code, context);
        }
        let own = context.accumulator_names(Binding::Own);
        let Some(name) = self.rng.choose(&own) else {
            return;
        };
        let mask = self.live_mask(context);
        let body = self.new_body(&mut context.child(mask), |_, code, _, _| {
            code.extend([command, name]);
        });
        if let Some(b) = body {
            self.activities += 1;
            code.extend([ASYNC, b, mask]);
        }
    }

    fn write_read_with_clock(&mut self, code: &mut Vec<u8>, context: &mut Context) {
        if context.accumulator_names(Binding::Own).is_empty() {
            self.write_acc(code, context);
        }
        if context.held_names().is_empty() {
            self.write_clock(code, context);
        }
        let own = context.accumulator_names(Binding::Own);
        if let Some(name) = self.rng.choose(&own) {
            code.extend([self.rng.pick(&[READ, RESET]), name]);
        }
    }
}
