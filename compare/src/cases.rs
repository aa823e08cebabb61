//! Tables by hand, and states by hand: a reached state with one edit, and the number that both interpreters answer.

mod chosen;
mod counts;
mod numbers;
mod passed_on;
mod tables;
mod unfit;

use reference::answer::accepted;
use reference::bytes::{decode, encode};
use reference::calls;
use reference::fit::{broken_clauses, CLAUSES};
use reference::state::State;

use crate::machine;
use crate::points::{state_agrees, Job};
use crate::tally::Tally;

/// How a reached state is changed.
enum Edit {
    Fields(fn(&mut State)),
    Bytes(fn(&mut Vec<u8>)),
}

struct Case {
    name: &'static str,
    table: &'static [u8],
    /// The accepted steps that reach the state.
    order: &'static [usize],
    edit: Edit,
    /// The clauses of number 13 that the edited state breaks, by their places in the paper.
    breaks: &'static [usize],
    activity: usize,
    number: u8,
    /// How many the activity waits for.
    awaited: u8,
}

/// Every case, and that each clause of number 13 has one.
pub fn all_agree(tally: &mut Tally) {
    tables::all_agree(tally);
    let mut tried = [false; CLAUSES.len()];
    let numbers = numbers::CASES.iter().chain(counts::CASES);
    let numbers = numbers.chain(passed_on::CASES).chain(chosen::CASES);
    for case in unfit::CASES.iter().chain(numbers) {
        agrees(case, tally);
        case.breaks.iter().for_each(|&clause| tried[clause] = true);
    }
    assert!(tried.iter().all(|&t| t), "a clause of 13 without a case");
}

fn agrees(case: &Case, tally: &mut Tally) {
    let job = Job::read(case.name, case.table).expect("an accepted table");
    let (run, account) = calls::accounted(case.table, case.order).expect("an accepted table");
    assert!(
        run.answers.iter().all(|&a| accepted(a)),
        "{}: order",
        case.name
    );
    assert!(
        account.adds_up(&job.table, &run.state),
        "{}: work",
        case.name
    );
    let reached = encode(&run.state);
    let number = state_agrees(&job, &reached, [case.activity].into_iter())[0];
    assert_ne!(number, 13, "{}: reached", case.name);
    let bytes = edited(case, run.state);
    let found = state_agrees(&job, &bytes, [case.activity].into_iter())[0];
    assert_eq!(found, case.number, "{}", case.name);
    let awaited = machine::awaited(&mut job.bytes.clone(), &mut bytes.clone(), case.activity);
    assert_eq!(awaited.1, case.awaited, "{}: count", case.name);
    let others = [0, 1, 2, 63, 64, 256, usize::MAX].into_iter();
    let answers = state_agrees(&job, &bytes, others);
    assert!(
        answers.iter().all(|&a| (a == 13) == (found == 13)),
        "{}",
        case.name
    );
    tally.meet(found);
    tally.states += 1;
}

/// The state with the edit, as bytes; the reference names the clauses that it breaks.
fn edited(case: &Case, mut state: State) -> Vec<u8> {
    let job = Job::read(case.name, case.table).expect("an accepted table");
    let mut bytes = encode(&state);
    match case.edit {
        Edit::Fields(edit) => {
            edit(&mut state);
            bytes = encode(&state);
            let words: Vec<&str> = case.breaks.iter().map(|&k| CLAUSES[k].0).collect();
            assert_eq!(broken_clauses(&job.table, &state), words, "{}", case.name);
        }
        Edit::Bytes(edit) => {
            edit(&mut bytes);
            assert!(decode(&bytes).is_none(), "{}: bytes", case.name);
        }
    }
    bytes
}
