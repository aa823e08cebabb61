//! What a call of a step shows of its run.

use reference::rules;
use reference::state::{Activity, Frame, Hold, Registration, Standing, State};
use reference::table::{Command, Table};
use reference::Fault;

use super::past::Past;

/// The standing of one that has passed a fault on.
const PASSED_ON: Standing = Standing::Faulted(Fault::FaultInside);

/// A call of a step in a run.
pub struct Call<'a> {
    pub table: &'a Table,
    pub before: &'a State,
    pub activity: usize,
    pub answer: u8,
    /// The calls before this one.
    pub past: &'a Past,
}

impl Call<'_> {
    pub fn spawned(&self) -> Option<&Activity> {
        self.before.spawned().get(self.activity)
    }

    /// The activity; only for one that was spawned.
    pub fn own(&self) -> &Activity {
        &self.before.acts[self.activity]
    }

    pub fn command(&self) -> Option<&Command> {
        let top = self.spawned()?.top()?;
        let place = self.table.place(top.body, top.offset)?;
        Some(&place.command)
    }

    /// Whether a command of this kind was done.
    pub fn does(&self, kind: fn(&Command) -> bool) -> bool {
        self.answer == 0 && self.command().is_some_and(kind)
    }

    pub fn faults(&self, fault: u8, kind: fn(&Command) -> bool) -> bool {
        self.answer == 100 + fault && self.command().is_some_and(kind)
    }

    pub fn waits(&self, kind: fn(&Command) -> bool) -> bool {
        self.answer == 16 && self.command().is_some_and(kind)
    }

    /// Whether a command of this kind waits for so many or more.
    pub fn waits_for(&self, least: u8, kind: fn(&Command) -> bool) -> bool {
        let awaited = || rules::awaited(self.table, self.before, self.activity);
        self.waits(kind) && awaited().is_ok_and(|count| count >= least)
    }

    /// Whether a NEXT was passed.
    pub fn passes(&self) -> bool {
        self.does(|x| *x == Command::Next) && self.own().standing == Standing::Meeting
    }

    /// Whether some clock is held both by this activity and by another, in this way.
    pub fn some_hold(&self, test: impl Fn(&Hold, &Hold) -> bool) -> bool {
        let others = self.before.spawned().iter().enumerate();
        let mut holds = others
            .filter(|(i, _)| *i != self.activity)
            .flat_map(|(_, other)| other.held());
        holds.any(|other| {
            let mut own = self.own().held();
            own.any(|own| own.clock == other.clock && test(own, other))
        })
    }

    /// Whether another holder is behind on 2 or more of the own clocks.
    pub fn behind_twice(&self) -> bool {
        let behind = |other: &Activity| {
            let own = self.own().held();
            own.filter(|own| other.held().any(|hold| is_behind(hold, own)))
                .count()
        };
        self.before.spawned().iter().any(|other| behind(other) > 1)
    }

    /// The most holders of one of the own clocks.
    pub fn company(&self) -> usize {
        let holders = |clock| {
            let spawned = self.before.spawned().iter();
            spawned
                .filter(|a| a.held().any(|h| h.clock == clock))
                .count()
        };
        self.own()
            .held()
            .map(|h| holders(h.clock))
            .max()
            .unwrap_or(0)
    }

    /// Whether another holder of an own clock is at a meeting.
    pub fn others_meet(&self) -> bool {
        let mut others = self.before.spawned().iter().enumerate();
        others.any(|(i, other)| {
            let shared = |h: &Hold| self.own().held().any(|own| own.clock == h.clock);
            i != self.activity && other.standing == Standing::Meeting && other.held().any(shared)
        })
    }

    /// Whether the mask of an ASYNC names a clock name that stands so.
    pub fn asks(&self, registration: Registration) -> bool {
        let mask = match self.command() {
            Some(Command::Async { mask, .. }) => *mask,
            _ => 0,
        };
        let mut holds = self.own().holds.iter().enumerate();
        holds.any(|(k, hold)| mask >> k & 1 == 1 && hold.registration == registration)
    }

    /// How many clocks were lent.
    pub fn lends(&self) -> usize {
        match self.command() {
            Some(Command::Async { mask, .. }) if self.answer == 0 => mask.count_ones() as usize,
            _ => 0,
        }
    }

    /// The hold under the name in the command.
    pub fn named_hold(&self) -> Option<&Hold> {
        match self.command()? {
            Command::Resume(c) | Command::Drop(c) => Some(&self.own().holds[usize::from(*c)]),
            _ => None,
        }
    }

    /// The bodies on the stack that a command of this kind runs.
    fn stacked(&self, kind: fn(&Command) -> bool) -> usize {
        let Some((_, below)) = self.spawned().and_then(|own| own.stack().split_last()) else {
            return 0;
        };
        let place = |frame: &Frame| self.table.place(frame.body, frame.offset);
        let commands = below.iter().filter_map(place);
        commands.filter(|place| kind(&place.command)).count()
    }

    pub fn finishes(&self) -> usize {
        self.stacked(|x| matches!(x, Command::Finish { .. }))
    }

    pub fn repeats(&self) -> usize {
        self.stacked(|x| matches!(x, Command::Repeat { .. }))
    }

    pub fn conditions(&self) -> usize {
        self.stacked(|x| matches!(x, Command::Choose { .. }))
    }

    /// Whether a CHOOSE was done and runs its body.
    pub fn chooses(&self) -> bool {
        self.is_choose() && self.own().hand != 0
    }

    /// Whether a CHOOSE was done and skips its body.
    pub fn skips(&self) -> bool {
        self.is_choose() && self.own().hand == 0
    }

    fn is_choose(&self) -> bool {
        self.does(|x| matches!(x, Command::Choose { .. }))
    }

    /// Whether a spawned activity is at its first command.
    pub fn begins(&self) -> bool {
        self.activity > 0 && self.own().depth == 1 && self.own().frames[0].offset == 0
    }

    /// Whether the top body is a CHOOSE's.
    pub fn tops_choose(&self) -> bool {
        let stack = self.spawned().map_or(&[][..], Activity::stack);
        let below = stack.iter().rev().nth(1);
        let place = below.and_then(|frame| self.table.place(frame.body, frame.offset));
        place.is_some_and(|place| matches!(place.command, Command::Choose { .. }))
    }

    /// Whether the top body is a FINISH's.
    pub fn tops_finish(&self) -> bool {
        let top = self.spawned().and_then(Activity::top);
        top.is_some_and(|frame| frame.first > 0)
    }

    pub fn top_runs(&self) -> u8 {
        self.own().top().map_or(0, |frame| frame.runs)
    }

    /// The children of this one from a number on, and the activities below these, by number.
    fn below_from(&self, first: usize) -> Vec<usize> {
        let mut below = Vec::new();
        for (i, other) in self.before.spawned().iter().enumerate().skip(1) {
            let spawner = usize::from(other.spawner);
            let child = spawner == self.activity && i >= first;
            if child || below.contains(&spawner) {
                below.push(i);
            }
        }
        below
    }

    /// The activities below this one, by number.
    fn descendants(&self) -> Vec<usize> {
        self.below_from(0)
    }

    /// The activities inside the finish of the top body, by number.
    fn inside(&self) -> Vec<usize> {
        let first = self.own().top().map_or(0, |frame| frame.first);
        self.below_from(usize::from(first))
    }

    fn is_child(&self, other: usize) -> bool {
        usize::from(self.before.acts[other].spawner) == self.activity
    }

    /// Whether an unended activity inside the finish of the top body is not a child of this one.
    pub fn grandchild_inside(&self) -> bool {
        let acts = &self.before.acts;
        let mut inside = self.inside().into_iter();
        inside.any(|i| !acts[i].has_ended() && !self.is_child(i))
    }

    fn has_faulted(&self, other: usize) -> bool {
        self.before.acts[other].has_faulted()
    }

    /// Whether an activity inside the finish of the top body has faulted.
    pub fn fault_inside(&self) -> bool {
        self.inside().into_iter().any(|i| self.has_faulted(i))
    }

    /// Whether a child inside the finish of the top body has faulted.
    pub fn child_faulted(&self) -> bool {
        let mut inside = self.inside().into_iter();
        inside.any(|i| self.has_faulted(i) && self.is_child(i))
    }

    /// Whether a child from before the finish of the top body has faulted.
    pub fn earlier_faulted(&self) -> bool {
        let inside = self.inside();
        let mut all = self.descendants().into_iter();
        all.any(|i| self.has_faulted(i) && self.is_child(i) && !inside.contains(&i))
    }

    /// Those inside the finish of the top body that have F8.
    fn passers(&self) -> impl Iterator<Item = usize> + '_ {
        let inside = self.inside().into_iter();
        inside.filter(|&i| self.before.acts[i].standing == PASSED_ON)
    }

    /// Whether one inside the finish of the top body has F8.
    pub fn passer_inside(&self) -> bool {
        self.passers().next().is_some()
    }

    /// Whether one inside the finish of the top body has F8, and so has one below it.
    pub fn passers_inside(&self) -> bool {
        let passers: Vec<usize> = self.passers().collect();
        let below = |i| {
            Call {
                activity: i,
                ..*self
            }
            .descendants()
        };
        let mut all = passers.iter();
        all.any(|&i| below(i).iter().any(|other| passers.contains(other)))
    }

    /// Whether another activity waits at a meeting for this one.
    pub fn keeps_another(&self) -> bool {
        let mut others = self.before.spawned().iter().enumerate();
        others.any(|(i, other)| {
            let late = |h: &Hold| self.own().held().any(|own| is_behind(own, h));
            i != self.activity && other.standing == Standing::Meeting && other.held().any(late)
        })
    }

    pub fn has_child(&self) -> bool {
        let mut spawned = self.before.spawned().iter().skip(1);
        spawned.any(|other| usize::from(other.spawner) == self.activity)
    }

    pub fn unended_child(&self) -> bool {
        let acts = &self.before.acts;
        let mut below = self.descendants().into_iter();
        below.any(|i| !acts[i].has_ended() && self.is_child(i))
    }

    pub fn unended_below(&self) -> bool {
        let acts = &self.before.acts;
        self.descendants().iter().any(|&i| !acts[i].has_ended())
    }

    /// Whether some unended descendant has a spawner that has ended.
    pub fn orphan(&self) -> bool {
        let acts = &self.before.acts;
        let ended = |i: usize| acts[i].has_ended();
        let mut below = self.descendants().into_iter();
        below.any(|i| !ended(i) && ended(usize::from(acts[i].spawner)))
    }

    /// Whether all unended descendants have a spawner that has ended.
    pub fn orphans(&self) -> bool {
        let acts = &self.before.acts;
        let mut unended = self.descendants();
        unended.retain(|&i| !acts[i].has_ended());
        unended
            .iter()
            .all(|&i| acts[usize::from(acts[i].spawner)].has_ended())
    }

    /// The accumulator under the name in the command.
    fn named_accumulator(&self) -> Option<usize> {
        let name = match self.command()? {
            Command::Acc { name, .. } => *name,
            Command::Offer(a) | Command::Read(a) | Command::Reset(a) => *a,
            _ => return None,
        };
        self.own().bound(name).map(usize::from)
    }

    pub fn owns_named(&self) -> bool {
        let number = self.named_accumulator();
        number.is_some_and(|n| usize::from(self.before.accs[n].owner) == self.activity)
    }

    pub fn offers_to(&self, operator: u8) -> bool {
        let offer = self.does(|x| matches!(x, Command::Offer(_)));
        let number = self.named_accumulator();
        offer && number.is_some_and(|n| self.before.accs[n].operator.byte() == operator)
    }

    pub fn wraps(&self) -> bool {
        let number = self.named_accumulator();
        let value = number.map_or(0, |n| self.before.accs[n].value);
        value.checked_add(self.own().hand).is_none()
    }

    pub fn rebinds(&self) -> bool {
        let acc = self.does(|x| matches!(x, Command::Acc { .. }));
        acc && self.named_accumulator().is_some()
    }
}

/// Whether a hold on the same clock is in an earlier phase, or live in the same one.
fn is_behind(hold: &Hold, own: &Hold) -> bool {
    let live = hold.registration == Registration::Live;
    hold.clock == own.clock && (hold.phase < own.phase || hold.phase == own.phase && live)
}
