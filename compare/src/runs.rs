//! Random tables: the start, a run at every point, the run in one call.

use reference::account::Account;
use reference::bytes::{encode, start};
use reference::calls;
use reference::fit::is_fit;
use reference::generate::{order, order_bytes, random_order, random_table, OrderKind, Rng};
use reference::rules;
use reference::state::State;

use crate::damaged;
use crate::features::Watch;
use crate::machine;
use crate::points::{counts_agree, step_agrees, views_agree, Job};
use crate::tally::Tally;

/// A run is compared at as many of its first points as its table's length allows: each call reads the table.
const MOST: usize = 300;
const READ: usize = 60_000;
/// Longer than the longest work: a run to its end, with numbers in between that are turned down.
const WHOLE: usize = 110_000;
/// At every point the count is compared of so many that wait, and at this point of every number.
const WAITING: usize = 4;
const ALL_AT: usize = 100;

/// The random things of one index: a table, its run, and damaged states of it.
pub fn table_agrees(seed: u64, index: u64, tally: &mut Tally) {
    let mut rng = Rng::new(seed.wrapping_mul(1_000_003).wrapping_add(index));
    let bytes = random_table(&mut rng);
    let (number, state) = machine::start(&bytes);
    assert!((number, state) == start(&bytes), "start of {bytes:02X?}");
    tally.tables += 1;
    tally.meet(number);
    match Job::read(&format!("seed {seed} index {index}"), &bytes) {
        Some(job) => accepted_agrees(&job, &mut rng, tally),
        None => refused_agrees(&bytes, number),
    }
}

/// Every call turns the table down with its number: the ready set is empty, the sheet is zeros, the count is 0, and all else that is lent
/// stays.
pub fn refused_agrees(table: &[u8], number: u8) {
    for state in [encode(&rules::start()), Vec::new()] {
        let mut after = state.clone();
        assert_eq!(machine::step(table, &mut after, 0), number);
        assert_eq!(after, state);
        assert_eq!(machine::ready(table, &state), (number, 0));
        assert_eq!(machine::registrations(table, &state), (number, [0; 1_024]));
        count_refused(table, &state, number);
    }
    let (found, answers, state) = machine::run(table, &[0, 1, 0]);
    assert_eq!(found, number, "run of {table:02X?}");
    assert!(machine::is_untouched(&answers) && machine::is_untouched(&state));
}

/// The count of a table turned down is 0, and nothing else is written.
fn count_refused(table: &[u8], state: &[u8], number: u8) {
    let (mut lent, mut after) = (table.to_vec(), state.to_vec());
    for activity in [0, 1, 64] {
        let found = machine::awaited(&mut lent, &mut after, activity);
        assert_eq!(found, (number, 0), "count of {table:02X?}");
    }
    assert!(lent == table && after == state, "count of {table:02X?}");
}

fn accepted_agrees(job: &Job, rng: &mut Rng, tally: &mut Tally) {
    tally.accepted += 1;
    let most = (READ / job.bytes.len()).min(MOST);
    let order = random_order(rng, &job.bytes, most);
    let kept = (0..3).map(|_| rng.below(order.len() + 1)).collect();
    let points = run_agrees(job, &order, kept, tally);
    if order.len() == most {
        whole_agrees(job, rng);
    }
    damaged::states_agree(job, &points, rng, tally);
}

/// A run at every point, and then in one call; the states at the points to be kept.
fn run_agrees(job: &Job, order: &[usize], kept: Vec<usize>, tally: &mut Tally) -> Vec<Vec<u8>> {
    let mut state = rules::start();
    let mut bytes = encode(&state);
    let mut watch = Watch::default();
    let mut account = Account::default();
    let mut answers = Vec::with_capacity(order.len());
    let mut points = Vec::new();
    for (k, &activity) in order.iter().enumerate() {
        assert!(is_fit(&job.table, &state), "{}: point {k}", job.name);
        views_agree(job, &bytes, Some(&state));
        let counted = counted(job, &state, k, activity);
        tally.counts += counted.len() as u64;
        counts_agree(job, &bytes, Some(&state), counted.into_iter());
        if kept.contains(&k) {
            points.push(bytes.clone());
        }
        let before = state.clone();
        let answer = step_agrees(job, &mut bytes, &mut state, activity);
        watch.see(&job.table, &before, activity, answer);
        account.enter(rules::spared(&job.table, &before, activity), answer);
        tally.meet(answer);
        answers.push(answer);
    }
    views_agree(job, &bytes, Some(&state));
    counts_agree(job, &bytes, Some(&state), 0..state.spawned().len() + 1);
    points.push(bytes);
    tally.steps += order.len() as u64;
    tally.ended += u64::from(state.is_finished());
    account_agrees(job, &account, &state);
    watch.end(&state, &account);
    watch.count(&mut tally.features);
    one_call_agrees(job, order, &answers, &state);
    points
}

/// The activities whose count is compared at a point: those that wait, all or some in turn, the next one of the order, and in turn a spawned
/// one or the number after the last; at one point every number.
fn counted(job: &Job, state: &State, point: usize, next: usize) -> Vec<usize> {
    if point == ALL_AT {
        return (0..65).chain([next]).collect();
    }
    let spawned = state.spawned().len();
    let waits = |i: &usize| rules::awaited(&job.table, state, *i).is_ok_and(|count| count > 0);
    let from = point % spawned.max(1);
    let mut counted: Vec<usize> = (from..spawned)
        .chain(0..from)
        .filter(waits)
        .take(WAITING)
        .collect();
    for other in [point % (spawned + 1), next] {
        if !counted.contains(&other) {
            counted.push(other);
        }
    }
    counted
}

/// What was taken and what CHOOSE spared are the work of a run finished without a fault; else they are less.
fn account_agrees(job: &Job, account: &Account, state: &State) {
    assert!(
        account.adds_up(&job.table, state),
        "{}: {account:?} of work {}",
        job.name,
        job.table.work()
    );
}

/// The run in one call, without the numbers that are no byte: those are turned down.
fn one_call_agrees(job: &Job, order: &[usize], answers: &[u8], state: &State) {
    let numbers = order.iter().zip(answers);
    let kept: Vec<u8> = numbers
        .filter(|(&activity, _)| activity < 256)
        .map(|(_, &answer)| answer)
        .collect();
    let found = machine::run(&job.bytes, &order_bytes(order));
    assert!(
        found == (0, kept, encode(state)),
        "run of {:02X?}",
        job.bytes
    );
}

/// A run to its end, in one call.
fn whole_agrees(job: &Job, rng: &mut Rng) {
    let order = order(rng, &job.bytes, OrderKind::Nonsense, WHOLE);
    let (run, account) = calls::accounted(&job.bytes, &order).expect("an accepted table");
    assert!(run.state.is_finished(), "{}: the whole run", job.name);
    account_agrees(job, &account, &run.state);
    one_call_agrees(job, &order, &run.answers, &run.state);
}
