//! Runs many random tables to the end and checks what must hold of every run, and builds a list
//! of commands for each.
//!
//! Arguments: the number of tables (20,000) and the seed (1).

use std::collections::BTreeMap;

use reference::account::Account;
use reference::answer::{accepted, number};
use reference::bytes::{self, decode, encode};
use reference::fit::{broken_clauses, is_fit};
use reference::generate::{
    damage_state, limit_cases, list_of, order, random_table, room_of, strain_state, OrderKind, Rng,
};
use reference::state::{Activity, Frame, Registration, State};
use reference::table::{Command, Table};
use reference::{build, calls, list, rules};

/// Orders longer than this are cut.
const MOST: usize = 70_000;
/// Runs up to this length are checked at every point, longer ones now and then.
const SHORT: usize = 400;

fn main() {
    let mut arguments = std::env::args().skip(1);
    let mut argument = |default: u64| arguments.next().map_or(default, |a| a.parse().unwrap());
    let tables = argument(20_000);
    let seed = argument(1);
    let mut tally = Tally::default();
    for index in 0..tables {
        let mut rng = Rng::new(seed.wrapping_mul(1_000_003).wrapping_add(index));
        check_table(&mut rng, &mut tally);
        check_list(&mut rng, &mut tally);
    }
    check_limit_cases(&mut tally);
    tally.print(tables, seed);
}

/// How often each thing was met.
#[derive(Default)]
struct Tally {
    tables: BTreeMap<u8, u64>,
    lists: BTreeMap<u8, u64>,
    run_answers: BTreeMap<u8, u64>,
    state_answers: BTreeMap<u8, u64>,
    damages: BTreeMap<&'static str, [u64; 2]>,
    runs: BTreeMap<&'static str, u64>,
    /// How many an activity waited for, in runs.
    awaited: BTreeMap<u8, u64>,
    /// By command: steps, faults and refusals in runs.
    commands: BTreeMap<&'static str, [u64; 3]>,
}

impl Tally {
    fn print(&self, tables: u64, seed: u64) {
        println!("{tables} tables from seed {seed}");
        println!("table answers (0 is accepted): {:?}", self.tables);
        println!("list answers (0 is accepted): {:?}", self.lists);
        println!("runs: {:?}", self.runs);
        println!("answers in runs: {:?}", self.run_answers);
        println!("waited for in runs: {:?}", self.awaited);
        println!("commands in runs, [steps, faults, refusals]:");
        for (name, counts) in &self.commands {
            println!("  {name}: {counts:?}");
        }
        println!(
            "answers on damaged and strained states: {:?}",
            self.state_answers
        );
        println!("damages and strains, [fit, unfit]:");
        for (name, counts) in &self.damages {
            println!("  {name}: {counts:?}");
        }
        for number in 1..=18u8 {
            println!("number {number}: {}", self.met(number));
        }
        for fault in 1..=8u8 {
            println!("F{fault}: {}", self.met(100 + fault));
        }
    }

    fn met(&self, number: u8) -> u64 {
        [
            &self.tables,
            &self.lists,
            &self.run_answers,
            &self.state_answers,
        ]
        .iter()
        .filter_map(|counts| counts.get(&number))
        .sum()
    }
}

fn bump<K: Ord>(counts: &mut BTreeMap<K, u64>, key: K) {
    *counts.entry(key).or_default() += 1;
}

fn check_table(rng: &mut Rng, tally: &mut Tally) {
    let bytes = random_table(rng);
    let (number, start) = calls::start(&bytes);
    bump(&mut tally.tables, number);
    match Table::read(&bytes) {
        Ok(table) => {
            assert_eq!(number, 0);
            assert_eq!(start, rules::start());
            check_run(rng, &bytes, &table, tally);
        }
        Err(refusal) => {
            assert_eq!(number, refusal.number());
            check_refused(&bytes, number, &start);
        }
    }
}

/// A refused table is refused by every call with the same number.
fn check_refused(table: &[u8], number: u8, start: &State) {
    assert!((1..=12).contains(&number));
    assert_eq!(*start, State::default());
    let mut state = rules::start();
    assert_eq!(calls::step(table, &mut state, 0), number);
    assert_eq!(state, rules::start());
    assert_eq!(calls::ready(table, &state), (number, 0));
    assert_eq!(calls::awaited(table, &state, 0), (number, 0));
    assert_eq!(calls::registrations(table, &state), (number, [[0; 16]; 64]));
    assert_eq!(bytes::start(table), (number, encode(&State::default())));
    assert_eq!(bytes::ready(table, &[]), (number, 0));
    assert_eq!(bytes::awaited(table, &[], 0), (number, 0));
}

/// A list that is accepted given room is refused with 18 in less, and comes back from its table.
fn check_list(rng: &mut Rng, tally: &mut Tally) {
    let entries = list_of(rng);
    let mut table = vec![0; 1 + 5 * entries.len()];
    let (number, length) = build(&entries, &mut table);
    table.truncate(length);
    assert_eq!(number == 0, length > 0);
    assert_ne!(number, 4, "a list has only whole commands");
    let room = room_of(rng, length);
    let mut lent = vec![0xA5; room];
    let answer = build(&entries, &mut lent);
    bump(&mut tally.lists, answer.0);
    if room < length {
        assert_eq!(answer, (18, 0));
    } else {
        assert_eq!(answer, (number, length));
    }
    assert_eq!(lent[..answer.1], table[..answer.1]);
    assert!(lent[answer.1..].iter().all(|&byte| byte == 0xA5));
    if number == 0 {
        check_listing(&entries, &table);
    }
}

/// The commands of a built table are the list, and building them gives the table.
fn check_listing(entries: &[[u8; 5]], table: &[u8]) {
    assert!(Table::read(table).is_ok());
    let mut listed = vec![[0xA5; 5]; entries.len() + 1];
    assert_eq!(list(table, &mut listed), (0, entries.len()));
    assert_eq!(listed.pop(), Some([0xA5; 5]));
    assert!(listed
        .iter()
        .zip(entries)
        .all(|(new, old)| new[0] == old[0]));
    let mut again = vec![0; table.len()];
    assert_eq!(build(&listed, &mut again), (0, table.len()));
    assert_eq!(again, table);
}

fn check_run(rng: &mut Rng, bytes: &[u8], table: &Table, tally: &mut Tally) {
    let kind = rng.pick(&OrderKind::ALL);
    let order = order(rng, bytes, kind, MOST);
    let every = 1 + order.len() / SHORT;
    let mut state = rules::start();
    let mut account = Account::default();
    check_point(bytes, table, &state);
    for (turn, &activity) in order.iter().enumerate() {
        let before = state.steps;
        let spared = rules::spared(table, &state, activity);
        let command = command_name(table, &state, activity);
        let awaited = rules::awaited(table, &state, activity).unwrap_or(0);
        let answer = if turn % every == 0 {
            step_watched(table, &mut state, activity)
        } else {
            number(rules::step(table, &mut state, activity))
        };
        check_awaited(answer, awaited);
        bump(&mut tally.run_answers, answer);
        bump(&mut tally.awaited, awaited);
        tally.commands.entry(command).or_default()[column(answer)] += 1;
        assert!(!matches!(answer, 1..=13 | 17), "answer {answer} in a run");
        account.enter(spared, answer);
        assert_eq!(state.steps, before + u32::from(accepted(answer)));
        if turn % every == 0 {
            check_point(bytes, table, &state);
        }
        if turn % (10 * every) == 0 {
            check_ready(table, &state);
        }
        if rng.below(order.len() + 1) < 6 {
            check_damaged(rng, bytes, table, &state, tally);
        }
    }
    check_point(bytes, table, &state);
    check_end(table, &state, &account, order.len(), tally);
    let run = calls::run(bytes, &order).expect("an accepted table");
    assert_eq!(run.state, state);
    assert_eq!(run.answers.len(), order.len());
    assert_eq!(calls::accounted(bytes, &order), Ok((run, account)));
}

fn column(answer: u8) -> usize {
    match answer {
        0 => 0,
        101.. => 1,
        _ => 2,
    }
}

/// The name of the command that an activity stands on.
fn command_name(table: &Table, state: &State, activity: usize) -> &'static str {
    let top = state.spawned().get(activity).and_then(|a| a.top());
    let Some(place) = top.and_then(|frame| table.place(frame.body, frame.offset)) else {
        return "none";
    };
    match place.command {
        Command::End => "END",
        Command::Next => "NEXT",
        Command::Clock(_) => "CLOCK",
        Command::Resume(_) => "RESUME",
        Command::Drop(_) => "DROP",
        Command::Async { mask: 0, .. } => "ASYNC without clocks",
        Command::Async { .. } => "ASYNC with clocks",
        Command::Finish { .. } => "FINISH",
        Command::Repeat { runs: 0, .. } => "REPEAT 0",
        Command::Repeat { .. } => "REPEAT",
        Command::Acc { .. } => "ACC",
        Command::Offer(_) => "OFFER",
        Command::Read(_) => "READ",
        Command::Reset(_) => "RESET",
        Command::Put(_) => "PUT",
        Command::Cell(_) => "FETCH, STORE, ADD",
        Command::Atom(_) => "ATOM",
        Command::Choose { .. } if state.acts[activity].hand == 0 => "CHOOSE with hand 0",
        Command::Choose { .. } => "CHOOSE",
    }
}

/// A step by the checked call; a refused one changes nothing.
fn step_watched(table: &Table, state: &mut State, activity: usize) -> u8 {
    let before = state.clone();
    let answer = calls::step_on(table, state, activity);
    if !accepted(answer) {
        assert_eq!(*state, before, "a refused step changed the state");
    }
    check_chosen(table, &before, state, activity, answer);
    answer
}

/// What holds at every point of a run.
fn check_point(bytes: &[u8], table: &Table, state: &State) {
    assert!(
        is_fit(table, state),
        "{bytes:02X?} {:?}",
        broken_clauses(table, state)
    );
    assert_eq!(decode(&encode(state)).as_ref(), Some(state));
    assert!(
        state.is_finished() || rules::ready(table, state) != 0,
        "standstill of {bytes:02X?}"
    );
    let counts = table.counts();
    assert!(u64::from(state.activities) <= counts.activities);
    assert!(u64::from(state.clocks) <= counts.clocks);
    assert!(u64::from(state.accumulators) <= counts.accumulators);
    check_sheet(state);
}

/// The sheet says of each holder what the state says.
fn check_sheet(state: &State) {
    let sheet = rules::registrations(state);
    let mut entries = 0;
    for (activity, row) in state.acts.iter().zip(&sheet) {
        for hold in activity.held() {
            let wanted = match hold.registration {
                Registration::Live => 1,
                _ => 2,
            };
            assert_eq!(row[usize::from(hold.clock)], wanted);
            entries += 1;
        }
    }
    let shown = sheet.iter().flatten().filter(|&&entry| entry != 0).count();
    assert_eq!(shown, entries);
}

/// A step is answered with 16 exactly where its activity waits for somebody.
fn check_awaited(answer: u8, awaited: u8) {
    assert_eq!(answer == 16, awaited != 0, "{answer} with {awaited}");
}

/// The number that an activity waits for is that of those found one by one.
fn check_count(table: &Table, state: &State, activity: usize, answer: u8) {
    let (refusal, count) = calls::awaited_on(table, state, activity);
    assert_eq!(refusal, if matches!(answer, 14 | 15) { answer } else { 0 });
    check_awaited(answer, count);
    if answer == 16 {
        let all = 0..state.spawned().len();
        let found = all.filter(|&other| keeps_waiting(table, state, activity, other));
        assert_eq!(found.count(), usize::from(count));
    }
}

/// A step is answered with F8 exactly at the END of a FINISH body with all inside ended and one of
/// them faulted.
fn check_passed_on(table: &Table, state: &State, activity: usize, answer: u8) {
    let own = state.spawned().get(activity);
    let Some([.., below, top]) = own.map(Activity::stack) else {
        return assert_ne!(answer, 108);
    };
    let command = |frame: &Frame| &table.place(frame.body, frame.offset).unwrap().command;
    let finish = matches!(command(below), Command::Finish { .. });
    let inside = |other: &usize| comes_by(state, *other, activity) >= Some(top.first);
    let inside: Vec<usize> = (1..state.spawned().len()).filter(inside).collect();
    let all_ended = inside.iter().all(|&i| state.acts[i].has_ended());
    let faulted = inside.iter().any(|&i| state.acts[i].has_faulted());
    let passed_on = finish && *command(top) == Command::End && all_ended && faulted;
    // 17 comes in its place.
    if state.steps < table.work() {
        assert_eq!(answer == 108, passed_on);
    }
}

/// The ready set names those whose step is not refused with 14 to 16.
fn check_ready(table: &Table, state: &State) {
    let ready = rules::ready(table, state);
    for activity in 0..usize::from(state.activities) + 2 {
        let answer = number(rules::step(table, &mut state.clone(), activity));
        check_count(table, state, activity, answer);
        check_passed_on(table, state, activity, answer);
        let is_ready = activity < 64 && ready >> activity & 1 == 1;
        assert_eq!(is_ready, !matches!(answer, 14..=16));
    }
    assert_eq!(
        ready.checked_shr(u32::from(state.activities)).unwrap_or(0),
        0
    );
}

/// Whether one activity waits for another, for one that waits.
fn keeps_waiting(table: &Table, state: &State, activity: usize, other: usize) -> bool {
    let own = &state.acts[activity];
    let top = own.top().expect("one that waits has a body");
    let place = table.place(top.body, top.offset).expect("a command");
    let unended = !state.acts[other].has_ended();
    match place.command {
        Command::Next => is_behind(own, &state.acts[other]),
        Command::End => unended && comes_by(state, other, activity) >= Some(top.first),
        _ => unended && comes_by(state, other, activity).is_some(),
    }
}

/// Whether the other is in an earlier phase of a clock of both, or live in the same phase.
fn is_behind(own: &Activity, other: &Activity) -> bool {
    own.held().any(|mine| {
        let mut shared = other.held().filter(|theirs| theirs.clock == mine.clock);
        shared.any(|theirs| match theirs.registration {
            Registration::Live => theirs.phase <= mine.phase,
            _ => theirs.phase < mine.phase,
        })
    })
}

/// The child of the ancestor by which an activity's chain of spawners comes to it.
fn comes_by(state: &State, mut activity: usize, ancestor: usize) -> Option<u8> {
    while activity != 0 {
        let spawner = usize::from(state.acts[activity].spawner);
        if spawner == ancestor {
            return Some(activity as u8);
        }
        activity = spawner;
    }
    None
}

/// CHOOSE is never refused and never faults: it goes on after its two bytes with hand 0, and else
/// begins its body, and changes nothing else.
fn check_chosen(table: &Table, before: &State, after: &State, activity: usize, answer: u8) {
    let top = before.spawned().get(activity).and_then(Activity::top);
    let Some(frame) = top else {
        return;
    };
    let place = table.place(frame.body, frame.offset).expect("a command");
    let Command::Choose { body } = place.command else {
        return;
    };
    assert_eq!(answer, 0, "CHOOSE refused or faulted");
    let mut expected = before.clone();
    expected.steps += 1;
    let own = &mut expected.acts[activity];
    let depth = usize::from(own.depth);
    if own.hand == 0 {
        own.frames[depth - 1].offset += 2;
    } else {
        own.depth += 1;
        own.frames[depth] = Frame {
            body,
            ..Frame::default()
        };
    }
    assert_eq!(*after, expected);
}

/// Where a run is finished, all work is taken or spared unless an activity faulted.
fn check_end(table: &Table, state: &State, account: &Account, length: usize, tally: &mut Tally) {
    assert!(account.adds_up(table, state), "{account:?}");
    if !state.is_finished() {
        assert!(length >= MOST, "an order ended before its run");
        return bump(&mut tally.runs, "cut");
    }
    let faulted = state.spawned().iter().any(Activity::has_faulted);
    let counts = table.counts();
    if faulted {
        bump(&mut tally.runs, "finished with a fault");
    } else if account.skipped > 0 {
        bump(&mut tally.runs, "finished without a fault, work spared");
    } else {
        assert_eq!(u64::from(state.activities), counts.activities);
        assert_eq!(u64::from(state.clocks), counts.clocks);
        assert_eq!(u64::from(state.accumulators), counts.accumulators);
        bump(&mut tally.runs, "finished without a fault");
    }
}

/// Calls on a damaged or strained state: 13 or a fit answer, and fit states stay fit.
fn check_damaged(
    rng: &mut Rng,
    table_bytes: &[u8],
    table: &Table,
    state: &State,
    tally: &mut Tally,
) {
    let mut damaged = encode(state);
    let strained = rng.chance(25);
    let name = if strained {
        strain_state(table, &mut damaged, rng).expect("an encoded state")
    } else {
        damage_state(&mut damaged, rng)
    };
    let decoded = decode(&damaged).filter(|state| is_fit(table, state));
    let fit = decoded.is_some();
    assert!(fit || !strained, "a strained state is fit");
    if let Some(state) = decoded {
        check_ready(table, &state);
    }
    tally.damages.entry(name).or_default()[usize::from(!fit)] += 1;
    let (number, ready) = bytes::ready(table_bytes, &damaged);
    assert_eq!(number, if fit { 0 } else { 13 });
    let spawned = usize::from(damaged.get(1).copied().unwrap_or(0)).min(64);
    for activity in 0..spawned + 1 {
        let mut after = damaged.clone();
        let answer = bytes::step(table_bytes, &mut after, activity);
        bump(&mut tally.state_answers, answer);
        assert_eq!(answer == 13, !fit);
        let (number, count) = bytes::awaited(table_bytes, &damaged, activity);
        assert_eq!(number, if matches!(answer, 13..=15) { answer } else { 0 });
        check_awaited(answer, count);
        if accepted(answer) {
            let after = decode(&after).expect("an encoded state");
            assert!(is_fit(table, &after), "a step made the state unfit: {name}");
        } else {
            assert_eq!(after, damaged, "a refused step changed the state");
        }
        if fit {
            let is_ready = activity < 64 && ready >> activity & 1 == 1;
            assert_eq!(is_ready, !matches!(answer, 14..=16));
        }
    }
}

fn check_limit_cases(tally: &mut Tally) {
    for case in limit_cases() {
        let mut state = case.state.clone();
        let answer = bytes::step(&case.table, &mut state, case.activity);
        bump(&mut tally.state_answers, answer);
        assert_eq!(answer, 17, "{}", case.cause);
        assert_eq!(state, case.state);
        assert_eq!(bytes::ready(&case.table, &state), (0, 1), "{}", case.cause);
        let awaited = bytes::awaited(&case.table, &state, case.activity);
        assert_eq!(awaited, (0, 0), "{}", case.cause);
    }
}
