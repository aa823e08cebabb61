//! Code in which a finish passes a fault on.

use super::author::Author;
use super::codes::*;
use super::context::{Context, Name};

/// How deep the fault may be: so many children or finishes below the outermost ones.
const LEVELS: usize = 3;

impl Author<'_> {
    /// A FINISH with a fault inside; perhaps another meets on a clock of the owner, and perhaps a
    /// child from before faults.
    pub fn write_passed_on(&mut self, code: &mut Vec<u8>, context: &mut Context) {
        if self.rng.chance(40) {
            self.write_partner(code, context);
        }
        if self.rng.chance(20) {
            self.write_faulty_child(code, context, 0);
        }
        self.write_faulty_finish(code, context, LEVELS);
    }

    /// ASYNC of a body that meets on a clock of the spawner and so waits for it.
    fn write_partner(&mut self, code: &mut Vec<u8>, context: &mut Context) {
        if context.clock_names(Name::Live).is_empty() {
            self.write_clock(code, context);
        }
        let live = context.clock_names(Name::Live);
        if let Some(name) = self.rng.choose(&live).filter(|_| !context.in_finish) {
            self.write_async_masked(code, context, 1 << name);
        }
    }

    /// FINISH of a body with a faulty child and perhaps others that end well.
    fn write_faulty_finish(&mut self, code: &mut Vec<u8>, context: &mut Context, levels: usize) {
        let mut inner = context.clone();
        inner.in_finish = true;
        let body = self.new_body(&mut inner, |author, code, _, inner| {
            author.write_plain(code);
            author.write_faulty_child(code, inner, levels);
            if author.rng.chance(40) {
                author.write_async_masked(code, inner, 0);
            }
        });
        if let Some(b) = body {
            code.extend([FINISH, b]);
        }
    }

    /// ASYNC of a body that faults, spawns one that does, or has a finish with a fault inside.
    fn write_faulty_child(&mut self, code: &mut Vec<u8>, context: &mut Context, levels: usize) {
        let body = self.new_body(&mut context.child(0), |author, code, _, child| {
            author.write_plain(code);
            match author.rng.below(5).min(levels) {
                0 => {
                    let fault = author.rng.between(1, 7) as u8;
                    author.write_fault(code, child, fault);
                }
                1 => author.write_faulty_child(code, child, levels - 1),
                _ => author.write_faulty_finish(code, child, levels - 1),
            }
        });
        if let Some(b) = body {
            self.activities += 1;
            code.extend([ASYNC, b, 0]);
        }
    }
}
