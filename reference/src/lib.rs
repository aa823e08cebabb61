//! A second interpreter of the step machine for async, finish and clock tables.
//!
//! * [`answer`]: the numbers that calls answer with
//! * [`table`]: reading tables and counting them (numbers 1 to 12)
//! * [`builder`]: tables from lists of commands, and back (number 18)
//! * [`state`]: the state of a machine
//! * [`fit`]: which states are fit for a table (number 13)
//! * [`rules`]: the start, the step, the waiting test, the ready set and the sheet on fit states
//! * [`calls`]: the same as checked calls with the numbers of the paper
//! * [`account`]: what a run has taken and spared of its work
//! * [`bytes`]: the state as bytes, and the calls over such bytes
//! * [`walk`]: the text of the walk program
//! * [`generate`]: seeded random tables, lists, orders and damaged states

pub mod account;
pub mod answer;
pub mod builder;
pub mod bytes;
pub mod calls;
pub mod fit;
pub mod generate;
pub mod rules;
pub mod state;
pub mod table;
pub mod walk;

pub use answer::{Fault, Outcome, Refusal};
pub use builder::{build, list};
pub use calls::{awaited, ready, registrations, run, start, step, Run};
pub use state::State;
pub use table::{Counts, Table};
