//! The text of the walk program.

use std::fmt::Write;

use crate::answer::Refusal;
use crate::calls::run_on;
use crate::rules::awaited;
use crate::state::State;
use crate::table::Table;

/// At most this many bytes of an order are walked.
pub const MAX_ORDER: usize = 65_535;

/// What the walk program prints for a JOB and an ORDER.
pub fn walk(job: &[u8], order: &[u8]) -> String {
    match Table::read(job) {
        Ok(table) => walk_table(&table, order),
        Err(refusal) => format!("table {}\n", refusal.number()),
    }
}

fn walk_table(table: &Table, order: &[u8]) -> String {
    let order: Vec<usize> = order
        .iter()
        .take(MAX_ORDER)
        .map(|&activity| usize::from(activity))
        .collect();
    let mut text = String::from("line act answer taken\n");
    let mut numbered = (1..).zip(&order);
    let state = run_on(table, &order, |answer, state| {
        let (line, activity) = numbered.next().expect("one answer for each number");
        let waiting = waiting(table, state, *activity, answer);
        push_line(
            &mut text,
            format_args!("{line} {activity} {answer} {}{waiting}", state.steps),
        );
    });
    push_line(
        &mut text,
        format_args!(
            "work {} taken {} ended {} of {}",
            table.work(),
            state.steps,
            state.ended(),
            state.activities
        ),
    );
    text
}

/// The end of a line with 16, a blank and how many the activity waits for; nothing with another
/// answer. A refused step leaves the state, so the state after it is the one it was tried on.
fn waiting(table: &Table, state: &State, activity: usize, answer: u8) -> String {
    if answer != Refusal::Waits.number() {
        return String::new();
    }
    let count = awaited(table, state, activity).expect("one that waits has not ended");
    format!(" {count}")
}

fn push_line(text: &mut String, line: std::fmt::Arguments) {
    writeln!(text, "{line}").expect("a string takes every line");
}
