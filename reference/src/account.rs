//! The account of a run's work.

use crate::answer::accepted;
use crate::state::{Activity, State};
use crate::table::Table;

/// What a run has taken, and what its CHOOSE steps have spared.
#[derive(Clone, Debug, Default, PartialEq, Eq)]
pub struct Account {
    /// The accepted steps.
    pub taken: u64,
    /// The work of the bodies that CHOOSE did not run.
    pub spared: u64,
    /// How many bodies CHOOSE did not run.
    pub skipped: u64,
}

impl Account {
    /// Enters a step: what it would spare, as the state before it tells, and its answer.
    pub fn enter(&mut self, spared: u64, answer: u8) {
        if !accepted(answer) {
            return;
        }
        self.taken += 1;
        self.spared += spared;
        self.skipped += u64::from(spared > 0);
    }

    /// Whether the account fits the state at the end of the run. What was taken and what was spared
    /// are the work exactly where the run is finished without a fault, and else are less.
    pub fn adds_up(&self, table: &Table, state: &State) -> bool {
        let work = u64::from(table.work());
        let sum = self.taken + self.spared;
        let whole = state.is_finished() && !state.spawned().iter().any(Activity::has_faulted);
        let all_ran = !whole || (self.taken == work) == (self.skipped == 0);
        let taken = u64::from(state.steps) == self.taken;
        taken && all_ran && sum <= work && (sum == work) == whole
    }
}
