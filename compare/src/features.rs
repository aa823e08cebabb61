//! What a run contains: its commands, its faults, and how activities meet in it.

mod call;
mod past;

use std::collections::BTreeMap;

use reference::account::Account;
use reference::state::{Activity, Registration, State};
use reference::table::{CellCommand, Command, Table};

use call::Call;
use past::{Past, Step};

/// Whether a call shows a feature.
type Test = fn(&Call) -> bool;

/// The features with their tests.
const FEATURES: &[(&str, Test)] = &[
    ("END", |c| c.does(|x| *x == Command::End)),
    ("NEXT", |c| c.does(|x| *x == Command::Next)),
    ("CLOCK", |c| c.does(|x| matches!(x, Command::Clock(_)))),
    ("RESUME", |c| c.does(|x| matches!(x, Command::Resume(_)))),
    ("DROP", |c| c.does(|x| matches!(x, Command::Drop(_)))),
    ("ASYNC", |c| c.does(|x| matches!(x, Command::Async { .. }))),
    ("FINISH", |c| {
        c.does(|x| matches!(x, Command::Finish { .. }))
    }),
    ("REPEAT", |c| {
        c.does(|x| matches!(x, Command::Repeat { .. }))
    }),
    ("ACC", |c| c.does(|x| matches!(x, Command::Acc { .. }))),
    ("OFFER", |c| c.does(|x| matches!(x, Command::Offer(_)))),
    ("READ", |c| c.does(is_read)),
    ("RESET", |c| c.does(is_reset)),
    ("PUT", |c| c.does(|x| matches!(x, Command::Put(_)))),
    ("FETCH", |c| {
        c.does(|x| matches!(x, Command::Cell(CellCommand::Fetch(_))))
    }),
    ("STORE", |c| {
        c.does(|x| matches!(x, Command::Cell(CellCommand::Store(_))))
    }),
    ("ADD", |c| {
        c.does(|x| matches!(x, Command::Cell(CellCommand::Add(_))))
    }),
    ("ATOM", |c| c.does(|x| matches!(x, Command::Atom(_)))),
    ("CHOOSE that runs its body", |c| c.chooses()),
    ("CHOOSE that skips its body", |c| c.skips()),
    ("F1 of RESUME", |c| {
        c.faults(1, |x| matches!(x, Command::Resume(_)))
    }),
    ("F1 of DROP", |c| {
        c.faults(1, |x| matches!(x, Command::Drop(_)))
    }),
    ("F1 of ASYNC", |c| {
        c.faults(1, |x| matches!(x, Command::Async { .. }))
    }),
    ("F2", |c| c.faults(2, |_| true)),
    ("F3", |c| c.faults(3, |_| true)),
    ("F4", |c| c.faults(4, |_| true)),
    ("F5 of OFFER", |c| {
        c.faults(5, |x| matches!(x, Command::Offer(_)))
    }),
    ("F5 of READ", |c| c.faults(5, is_read)),
    ("F5 of RESET", |c| c.faults(5, is_reset)),
    ("F6 of READ", |c| c.faults(6, is_read)),
    ("F6 of RESET", |c| c.faults(6, is_reset)),
    ("F7 of READ", |c| c.faults(7, is_read)),
    ("F7 of RESET", |c| c.faults(7, is_reset)),
    ("F8 for a child", |c| c.answer == 108 && c.child_faulted()),
    ("F8 for a grandchild and no child", |c| {
        c.answer == 108 && !c.child_faulted()
    }),
    ("F8 for one with F8", |c| {
        c.answer == 108 && c.passer_inside()
    }),
    ("F8 for one with F8 and one below it with F8", |c| {
        c.answer == 108 && c.passers_inside()
    }),
    ("F8 in a FINISH nested 2 deep", |c| {
        c.answer == 108 && c.finishes() > 1
    }),
    ("F8 within a REPEAT", |c| c.answer == 108 && c.repeats() > 0),
    ("F8 by a holder of a clock that another waits on", |c| {
        c.answer == 108 && c.keeps_another()
    }),
    ("F8 within a CHOOSE body", |c| {
        c.answer == 108 && c.conditions() > 0
    }),
    ("F3 in a CHOOSE body within an own FINISH", |c| {
        c.answer == 103 && c.tops_choose()
    }),
    ("F1 where F2 applies too", |c| {
        c.answer == 101 && c.asks(Registration::Quiesced)
    }),
    ("F3 where F1 applies too", |c| {
        c.answer == 103 && c.asks(Registration::Free)
    }),
    ("a fault by one of several holders", |c| {
        c.answer > 100 && c.company() > 1
    }),
    ("a fault with unended descendants", |c| {
        c.answer > 100 && c.unended_below()
    }),
    ("number 14", |c| c.answer == 14),
    ("number 15", |c| c.answer == 15),
    ("waiting at NEXT", |c| c.waits(|x| *x == Command::Next)),
    ("waiting at NEXT for a holder in an earlier phase", |c| {
        c.waits(|x| *x == Command::Next) && c.some_hold(|own, other| other.phase < own.phase)
    }),
    ("waiting at NEXT for 2 or more", |c| {
        c.waits_for(2, |x| *x == Command::Next)
    }),
    ("waiting at NEXT for 3 or more", |c| {
        c.waits_for(3, |x| *x == Command::Next)
    }),
    ("waiting at NEXT for one behind on 2 clocks", |c| {
        c.waits(|x| *x == Command::Next) && c.behind_twice()
    }),
    ("waiting at NEXT within a CHOOSE body", |c| {
        c.waits(|x| *x == Command::Next) && c.conditions() > 0
    }),
    ("waiting at the END of a FINISH body", |c| {
        c.waits(|x| *x == Command::End)
    }),
    ("waiting at END for 2 or more", |c| {
        c.waits_for(2, |x| *x == Command::End)
    }),
    ("waiting at END for a grandchild", |c| {
        c.waits(|x| *x == Command::End) && c.grandchild_inside()
    }),
    ("waiting at END for one whose spawner has ended", |c| {
        c.waits(|x| *x == Command::End) && c.orphans()
    }),
    ("waiting at END with a faulted one inside", |c| {
        c.waits(|x| *x == Command::End) && c.fault_inside()
    }),
    ("waiting at READ", |c| c.waits(is_read)),
    ("waiting at RESET", |c| c.waits(is_reset)),
    (
        "waiting at READ or RESET for one whose spawner has ended",
        |c| c.waits(|x| is_read(x) || is_reset(x)) && c.orphans(),
    ),
    ("waiting at READ or RESET for 2 or more", |c| {
        c.waits_for(2, |x| is_read(x) || is_reset(x))
    }),
    (
        "waiting at READ or RESET for 2 or more, the spawner of one having ended",
        |c| c.waits_for(2, |x| is_read(x) || is_reset(x)) && c.orphan(),
    ),
    ("READ or RESET after all descendants ended", |c| {
        c.does(|x| is_read(x) || is_reset(x)) && c.has_child()
    }),
    ("END of a FINISH body past a child from before it", |c| {
        c.does(|x| *x == Command::End) && c.finishes() > 0 && c.unended_below() && c.tops_finish()
    }),
    (
        "END of a FINISH body past a faulted child from before it",
        |c| c.does(|x| *x == Command::End) && c.tops_finish() && c.earlier_faulted(),
    ),
    ("passing without a clock", |c| {
        c.passes() && c.own().held().count() == 0
    }),
    ("passing with 2 or more own clocks", |c| {
        c.passes() && c.own().held().count() > 1
    }),
    ("passing with 2 or more holders", |c| {
        c.passes() && c.company() > 1
    }),
    ("passing with 4 or more holders", |c| {
        c.passes() && c.company() > 3
    }),
    ("passing with another holder a phase ahead", |c| {
        c.passes() && c.some_hold(|own, other| other.phase > own.phase)
    }),
    ("passing in phase 3 or later", |c| {
        c.passes() && c.own().held().any(|h| h.phase > 2)
    }),
    ("passing inside an own FINISH", |c| {
        c.passes() && c.finishes() > 0 && c.company() > 1
    }),
    ("a clock lent", |c| c.lends() > 0),
    ("2 or more clocks lent", |c| c.lends() > 1),
    ("a clock lent in a later phase", |c| {
        c.lends() > 0 && c.own().held().any(|hold| hold.phase > 0)
    }),
    ("a clock lent by a spawned activity", |c| {
        c.lends() > 0 && c.activity > 0
    }),
    ("a clock held back at ASYNC", |c| {
        c.does(|x| matches!(x, Command::Async { .. })) && c.own().held().count() > c.lends()
    }),
    ("RESUME again", |c| {
        c.does(|x| matches!(x, Command::Resume(_)))
            && c.named_hold()
                .is_some_and(|h| h.registration == Registration::Quiesced)
    }),
    ("DROP while another holder is at a meeting", |c| {
        c.does(|x| matches!(x, Command::Drop(_))) && c.others_meet()
    }),
    ("DROP of one that quiesced", |c| {
        c.does(|x| matches!(x, Command::Drop(_)))
            && c.named_hold()
                .is_some_and(|h| h.registration == Registration::Quiesced)
    }),
    ("END of a holder while another is at a meeting", |c| {
        c.does(|x| *x == Command::End) && c.own().depth == 1 && c.others_meet()
    }),
    ("CLOCK of a 5th clock or later", |c| {
        c.does(|x| matches!(x, Command::Clock(_))) && c.before.clocks > 3
    }),
    ("ASYNC in an own FINISH", |c| {
        c.does(|x| matches!(x, Command::Async { .. })) && c.finishes() > 0
    }),
    ("FINISH nested 2 deep", |c| c.finishes() > 1),
    ("FINISH nested 3 deep", |c| c.finishes() > 2),
    ("FINISH nested 4 deep", |c| c.finishes() > 3),
    ("FINISH within a REPEAT", |c| {
        c.tops_finish() && c.repeats() > 0
    }),
    ("FINISH by a spawned activity", |c| {
        c.activity > 0 && c.does(|x| matches!(x, Command::Finish { .. }))
    }),
    ("REPEAT 0", |c| {
        c.does(|x| matches!(x, Command::Repeat { runs: 0, .. }))
    }),
    ("REPEAT nested 2 deep", |c| c.repeats() > 1),
    ("a second run of a REPEAT body", |c| {
        c.does(|x| *x == Command::End) && c.top_runs() > 1
    }),
    ("ASYNC in a REPEAT", |c| {
        c.does(|x| matches!(x, Command::Async { .. })) && c.repeats() > 0
    }),
    ("CHOOSE run and skipped by one activity", |c| {
        c.chooses() && c.past.skipped(c.activity) || c.skips() && c.past.ran(c.activity)
    }),
    (
        "CHOOSE within a REPEAT, skipped in one run and run in another",
        |c| (c.chooses() || c.skips()) && c.past.otherwise(c),
    ),
    ("CHOOSE that runs its body after READ", |c| {
        c.chooses() && c.past.has_read(c.activity)
    }),
    ("CHOOSE that runs its body, a child's first command", |c| {
        c.chooses() && c.begins()
    }),
    ("CHOOSE that skips its body, a child's first command", |c| {
        c.skips() && c.begins()
    }),
    ("CHOOSE nested 2 deep", |c| c.conditions() > 1),
    ("a CHOOSE body within a FINISH body", |c| {
        c.tops_choose() && c.finishes() > 0
    }),
    ("FINISH within a CHOOSE body", |c| {
        c.tops_finish() && c.conditions() > 0
    }),
    ("a clock lent within a CHOOSE body", |c| {
        c.lends() > 0 && c.conditions() > 0
    }),
    ("END of a CHOOSE body past an unended child", |c| {
        c.does(|x| *x == Command::End) && c.tops_choose() && c.unended_child()
    }),
    ("10 bodies on a stack", |c| {
        c.spawned().is_some_and(|own| own.depth > 9)
    }),
    ("OFFER to another's accumulator", |c| {
        c.does(|x| matches!(x, Command::Offer(_))) && !c.owns_named()
    }),
    ("OFFER to a minimum", |c| c.offers_to(1)),
    ("OFFER to a maximum", |c| c.offers_to(2)),
    ("OFFER past 2^32", |c| c.offers_to(0) && c.wraps()),
    ("ACC on a bound name of its own", |c| {
        c.rebinds() && c.owns_named()
    }),
    ("ACC on an inherited name", |c| {
        c.rebinds() && !c.owns_named()
    }),
    ("READ or RESET by a spawned activity", |c| {
        c.activity > 0 && c.does(|x| is_read(x) || is_reset(x))
    }),
    ("READ or RESET while others hold clocks", |c| {
        c.does(|x| is_read(x) || is_reset(x))
            && c.before.spawned().iter().any(|a| a.held().count() > 0)
    }),
    ("ATOM of 8", |c| {
        c.does(|x| matches!(x, Command::Atom(all) if all.len() == 8))
    }),
    ("64 activities", |c| c.before.activities == 64),
    ("16 clocks", |c| c.before.clocks == 16),
    ("16 accumulators", |c| c.before.accumulators == 16),
];

/// A finished run without a fault of which CHOOSE spared work, and one in which each CHOOSE ran its body.
const SPARED: &str = "an end without a fault, work spared";
const NONE_SPARED: &str = "an end without a fault, each CHOOSE having run its body";

/// The features' names.
pub fn names() -> Vec<&'static str> {
    let names = FEATURES.iter().map(|(name, _)| *name);
    names.chain([SPARED, NONE_SPARED]).collect()
}

/// The features seen in one run.
pub struct Watch {
    seen: [bool; FEATURES.len()],
    past: Past,
    end: Option<&'static str>,
}

impl Default for Watch {
    fn default() -> Watch {
        Watch {
            seen: [false; FEATURES.len()],
            past: Past::default(),
            end: None,
        }
    }
}

impl Watch {
    pub fn see(&mut self, table: &Table, before: &State, activity: usize, answer: u8) {
        let call = Call {
            table,
            before,
            activity,
            answer,
            past: &self.past,
        };
        for (seen, (_, test)) in self.seen.iter_mut().zip(FEATURES) {
            *seen = *seen || test(&call);
        }
        let step = Step::of(&call);
        self.past.enter(step);
    }

    /// How the run ended.
    pub fn end(&mut self, state: &State, account: &Account) {
        let faulted = state.spawned().iter().any(Activity::has_faulted);
        if state.is_finished() && !faulted {
            self.end = match account.skipped {
                0 => self.past.has_chosen().then_some(NONE_SPARED),
                _ => Some(SPARED),
            };
        }
    }

    /// Adds this run to the runs with each feature.
    pub fn count(&self, runs: &mut BTreeMap<&'static str, u64>) {
        let seen = self.seen.iter().zip(FEATURES);
        let names = seen.filter(|(seen, _)| **seen).map(|(_, (name, _))| *name);
        for name in names.chain(self.end) {
            *runs.entry(name).or_default() += 1;
        }
    }
}

fn is_read(command: &Command) -> bool {
    matches!(command, Command::Read(_))
}

fn is_reset(command: &Command) -> bool {
    matches!(command, Command::Reset(_))
}
