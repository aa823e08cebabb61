//! Meaningful jobs.

use super::chooses::Hand;
use super::codes::*;
use super::context::{Binding, Context, Name};
use super::faults::fault_bodies;
use super::rng::Rng;

/// How often each command is written: NEXT with a clock held and without, CLOCK, RESUME, DROP, ASYNC, FINISH, REPEAT, ACC, OFFER,
/// READ or RESET, PUT, a command on a cell, ATOM, CHOOSE.
type Taste = [usize; 15];

/// A little of everything, mostly meetings, mostly finishes, mostly accumulators.
const TASTES: [Taste; 4] = [
    [14, 2, 6, 5, 5, 22, 11, 10, 7, 9, 8, 5, 7, 4, 12],
    [44, 2, 5, 7, 6, 28, 3, 8, 2, 3, 2, 2, 4, 2, 6],
    [10, 1, 3, 2, 2, 26, 34, 6, 3, 5, 5, 2, 3, 2, 12],
    [4, 1, 2, 1, 2, 24, 8, 6, 10, 22, 18, 8, 3, 2, 10],
];

/// Writes the bodies of a table, each named body after the one that names it.
pub struct Author<'r> {
    pub rng: &'r mut Rng,
    pub bodies: Vec<Vec<u8>>,
    /// The most bodies that this table gets.
    pub most_bodies: usize,
    /// In so many of a hundred commands the author forgets the context.
    pub slips: usize,
    taste: Taste,
    pub activities: usize,
    pub clocks: usize,
    pub accumulators: usize,
}

impl<'r> Author<'r> {
    pub fn new(rng: &'r mut Rng, slips: usize) -> Author<'r> {
        let most_bodies = rng.pick(&[1, 3, 4, 6, 8, 10, 12, 16]);
        let taste = rng.pick(&TASTES);
        Author {
            rng,
            bodies: Vec::new(),
            most_bodies,
            slips,
            taste,
            activities: 1,
            clocks: 0,
            accumulators: 0,
        }
    }

    /// A whole table; with a fault, its code comes somewhere in main or in a body named there.
    pub fn write_table(mut self, fault: Option<u8>) -> Vec<u8> {
        let mut context = Context::main();
        if let Some(fault) = fault {
            self.most_bodies = self.most_bodies.min(16 - fault_bodies(fault));
        }
        self.bodies.push(Vec::new());
        let mut code = Vec::new();
        let length = self.rng.between(1, 20);
        let fault_at = self.rng.below(length);
        self.open_with_choose(&mut code, &mut context);
        self.open(&mut code, &mut context);
        for k in 0..length {
            if let Some(fault) = fault.filter(|_| k == fault_at) {
                self.most_bodies = self
                    .most_bodies
                    .max(self.bodies.len() + fault_bodies(fault));
                self.write_fault_somewhere(&mut code, &mut context, fault);
            }
            self.write_command(&mut code, 0, &mut context);
        }
        code.push(END);
        self.bodies[0] = code;
        let mut table = vec![self.bodies.len() as u8];
        table.extend(self.bodies.concat());
        table
    }

    /// Most jobs begin with a clock and an accumulator or two.
    pub fn open(&mut self, code: &mut Vec<u8>, context: &mut Context) {
        for _ in 0..self.rng.pick(&[0, 1, 1, 2, 3]) {
            self.write_clock(code, context);
        }
        for _ in 0..self.rng.below(3) {
            self.write_acc(code, context);
        }
    }

    /// Writes a new body with this context and gives its number, if there is room.
    pub fn new_body(
        &mut self,
        context: &mut Context,
        write: impl FnOnce(&mut Self, &mut Vec<u8>, u8, &mut Context),
    ) -> Option<u8> {
        if self.bodies.len() >= self.most_bodies {
            return None;
        }
        let number = self.bodies.len() as u8;
        self.bodies.push(Vec::new());
        let mut code = Vec::new();
        write(self, &mut code, number, context);
        code.push(END);
        self.bodies[usize::from(number)] = code;
        Some(number)
    }

    pub fn write_commands(&mut self, code: &mut Vec<u8>, body: u8, context: &mut Context) {
        let most = 11usize.saturating_sub(2 * context.nesting).max(3);
        for _ in 0..self.rng.below(most + 1) {
            self.write_command(code, body, context);
        }
    }

    pub fn write_command(&mut self, code: &mut Vec<u8>, body: u8, context: &mut Context) {
        if self.rng.chance(self.slips) {
            return self.write_slip(code, body);
        }
        let free = usize::from(context.held_names().is_empty());
        let mut weights = self.taste;
        weights[1 - free] = 0;
        match self.rng.weighted(&weights) {
            0 | 1 => self.write_next(code, context),
            2 => self.write_clock(code, context),
            3 => self.write_resume(code, context),
            4 => self.write_drop(code, context),
            5 => self.write_async(code, body, context),
            6 => self.write_finish(code, context),
            7 => self.write_repeat(code, context),
            8 => self.write_acc(code, context),
            9 => self.write_offer(code, context),
            10 => self.write_read(code, context),
            11 => self.write_put(code),
            12 => self.write_cell(code),
            13 => self.write_atom(code),
            _ => self.write_choose(code, context),
        }
    }

    /// A command with operands in range but without regard to the context.
    pub fn write_slip(&mut self, code: &mut Vec<u8>, body: u8) {
        let name = self.rng.below(8) as u8;
        let later = usize::from(body) + 1;
        match self.rng.below(9) {
            0 => code.extend([CLOCK, name]),
            1 => code.extend([RESUME, name]),
            2 => code.extend([DROP, name]),
            3 => code.extend([OFFER, name]),
            4 => code.extend([READ, name]),
            5 => code.extend([RESET, name]),
            6 if later < self.bodies.len() => {
                let b = self.rng.between(later, self.bodies.len() - 1) as u8;
                let mask = self.rng.byte();
                code.extend([ASYNC, b, mask]);
            }
            7 if later < self.bodies.len() => {
                let b = self.rng.between(later, self.bodies.len() - 1) as u8;
                code.extend([CHOOSE, b]);
            }
            _ => code.push(NEXT),
        }
    }

    pub fn write_next(&mut self, code: &mut Vec<u8>, context: &mut Context) {
        code.push(NEXT);
        for name in context.held_names() {
            context.clocks[usize::from(name)] = Name::Live;
        }
    }

    pub fn write_clock(&mut self, code: &mut Vec<u8>, context: &mut Context) {
        let Some(name) = self.rng.choose(&context.clock_names(Name::Free)) else {
            return;
        };
        if self.clocks + context.times <= 16 {
            self.clocks += context.times;
            code.extend([CLOCK, name]);
            context.clocks[usize::from(name)] = Name::Live;
        }
    }

    pub fn write_resume(&mut self, code: &mut Vec<u8>, context: &mut Context) {
        if let Some(name) = self.rng.choose(&context.held_names()) {
            code.extend([RESUME, name]);
            context.clocks[usize::from(name)] = Name::Quiesced;
        }
    }

    pub fn write_drop(&mut self, code: &mut Vec<u8>, context: &mut Context) {
        let mut names = context.held_names();
        names.retain(|&name| !context.kept[usize::from(name)]);
        if let Some(name) = self.rng.choose(&names) {
            code.extend([DROP, name]);
            context.clocks[usize::from(name)] = Name::Free;
        }
    }

    /// A mask of clocks that are held and live; 0 in an own FINISH body.
    pub fn live_mask(&mut self, context: &Context) -> u8 {
        if context.in_finish {
            return 0;
        }
        let all = self.rng.chance(50);
        let mut mask = 0;
        for name in context.clock_names(Name::Live) {
            if all || self.rng.chance(60) {
                mask |= 1 << name;
            }
        }
        mask
    }

    pub fn write_async(&mut self, code: &mut Vec<u8>, body: u8, context: &mut Context) {
        if self.activities + context.times > 64 {
            return;
        }
        self.activities += context.times;
        let mask = self.live_mask(context);
        let later: Vec<u8> = (body + 1..self.bodies.len() as u8).collect();
        let again = self.rng.chance(25);
        let written = match self.rng.choose(&later).filter(|_| again) {
            Some(known) => Some(known),
            None => self.new_body(&mut context.child(mask), Self::write_child),
        };
        if let Some(b) = written.or_else(|| self.rng.choose(&later)) {
            code.extend([ASYNC, b, mask]);
            if mask != 0 && self.rng.chance(40) {
                self.write_next(code, context);
            }
        }
    }

    /// The body of a spawned activity; with clocks it often begins with a meeting. Some begin with a
    /// CHOOSE, on the spawner's hand.
    fn write_child(&mut self, code: &mut Vec<u8>, body: u8, context: &mut Context) {
        if self.rng.chance(12) {
            self.write_chosen(code, context, Hand::Unknown);
        }
        if !context.held_names().is_empty() && self.rng.chance(60) {
            self.write_next(code, context);
        }
        self.write_commands(code, body, context);
    }

    pub fn write_finish(&mut self, code: &mut Vec<u8>, context: &mut Context) {
        let outer = context.in_finish;
        context.in_finish = true;
        context.nesting += 1;
        let body = self.new_body(context, Self::write_commands);
        context.nesting -= 1;
        context.in_finish = outer;
        if let Some(b) = body {
            code.extend([FINISH, b]);
        }
    }

    pub fn write_repeat(&mut self, code: &mut Vec<u8>, context: &mut Context) {
        let n = self.repeat_count(context);
        self.write_repeat_of(code, context, n, Self::write_commands);
    }

    /// REPEAT of a body that leaves the clock names as it found them.
    pub fn write_repeat_of(
        &mut self,
        code: &mut Vec<u8>,
        context: &mut Context,
        n: usize,
        write: impl FnOnce(&mut Self, &mut Vec<u8>, u8, &mut Context),
    ) {
        let mut inner = context.clone();
        inner.times *= n;
        inner.nesting += 1;
        inner.keep_held();
        let before = inner.clone();
        let body = self.new_body(&mut inner, |author, code, number, inner| {
            write(author, code, number, inner);
            author.restore(code, &before, inner);
        });
        let Some(b) = body else {
            return;
        };
        code.extend([REPEAT, n as u8, b]);
        if n > 0 {
            context.clocks = inner.clocks;
            context.accumulators = inner.accumulators;
        }
    }

    pub fn repeat_count(&mut self, context: &Context) -> usize {
        let most = (60 / context.times.max(1)).max(1);
        match self.rng.below(10) {
            0 => 0,
            1 => most,
            _ => self.rng.between(1, 4).min(most),
        }
    }

    /// Makes the clock names at the end of a repeated body, or of one under a condition, those of its
    /// beginning.
    pub fn restore(&mut self, code: &mut Vec<u8>, before: &Context, context: &mut Context) {
        for name in context.held_names() {
            let k = usize::from(name);
            if before.clocks[k] == Name::Free {
                code.extend([DROP, name]);
                context.clocks[k] = Name::Free;
            }
        }
        let quiesced = !context.clock_names(Name::Quiesced).is_empty();
        if quiesced && self.rng.chance(80) {
            self.write_next(code, context);
        }
    }

    pub fn write_acc(&mut self, code: &mut Vec<u8>, context: &mut Context) {
        if self.accumulators + context.times > 16 {
            return;
        }
        self.accumulators += context.times;
        let name = self.rng.low(3, 8) as u8;
        code.extend([ACC, name, self.rng.below(3) as u8]);
        context.accumulators[usize::from(name)] = Binding::Own;
    }

    pub fn write_offer(&mut self, code: &mut Vec<u8>, context: &mut Context) {
        let Some(name) = self.rng.choose(&context.bound_names()) else {
            return self.write_acc(code, context);
        };
        if self.rng.chance(40) {
            self.write_put(code);
        }
        code.extend([OFFER, name]);
    }

    /// READ or RESET of an own accumulator, most often after dropping all clocks.
    pub fn write_read(&mut self, code: &mut Vec<u8>, context: &mut Context) {
        let Some(name) = self.rng.choose(&context.accumulator_names(Binding::Own)) else {
            return;
        };
        let held = context.held_names();
        let kept = held.iter().any(|&k| context.kept[usize::from(k)]);
        if kept || (!held.is_empty() && self.rng.chance(40)) {
            return;
        }
        for clock in held {
            code.extend([DROP, clock]);
            context.clocks[usize::from(clock)] = Name::Free;
        }
        code.extend([self.rng.pick(&[READ, READ, RESET]), name]);
    }

    pub fn write_put(&mut self, code: &mut Vec<u8>) {
        let value = match self.rng.below(3) {
            0 => self.rng.below(10) as u32,
            1 => self.rng.pick(&[0, 1, u32::MAX, u32::MAX - 1, 1 << 31]),
            _ => self.rng.word() as u32,
        };
        code.push(PUT);
        code.extend(value.to_le_bytes());
    }

    pub fn write_cell(&mut self, code: &mut Vec<u8>) {
        let cell = self.rng.low(3, 16);
        code.extend([self.rng.pick(&[FETCH, STORE, ADD]), cell as u8]);
    }

    pub fn write_atom(&mut self, code: &mut Vec<u8>) {
        let k = self.rng.between(1, 8);
        code.extend([ATOM, k as u8]);
        for _ in 0..k {
            self.write_cell(code);
        }
    }

    /// A few commands that name no clock, accumulator or body.
    pub fn write_plain(&mut self, code: &mut Vec<u8>) {
        for _ in 0..self.rng.below(3) {
            match self.rng.below(3) {
                0 => self.write_put(code),
                1 => self.write_cell(code),
                _ => self.write_atom(code),
            }
        }
    }
}
