//! The generator: the same seed gives the same things, and they are what they claim to be.

use reference::bytes::{decode, encode};
use reference::calls::run;
use reference::fit::is_fit;
use reference::generate::{
    damage_names, damage_state, damage_state_by, fault_table, limit_table, list_of, order,
    program_table, random_order, random_table, strain_state, OrderKind, Rng,
};
use reference::rules;
use reference::table::{count, Command, Table};

#[test]
fn the_same_seed_gives_the_same() {
    for seed in 0..50 {
        let made = |mut rng: Rng| {
            let table = random_table(&mut rng);
            let order = random_order(&mut rng, &table, 1_000);
            let mut state = reference::bytes::start(&table).1;
            let damage = damage_state(&mut state, &mut rng);
            let list = list_of(&mut rng);
            (table, order, state, damage, list)
        };
        assert_eq!(made(Rng::new(seed)), made(Rng::new(seed)));
    }
}

#[test]
fn most_tables_are_accepted() {
    let mut rng = Rng::new(1);
    let accepted = (0..1_000).filter(|_| Table::read(&random_table(&mut rng)).is_ok());
    assert!(accepted.count() > 750);
}

#[test]
fn each_fault_is_met() {
    for fault in 1..=8 {
        let mut rng = Rng::new(u64::from(fault));
        let met = (0..100).filter(|_| {
            let table = fault_table(&mut rng, fault);
            let order = order(&mut rng, &table, OrderKind::Drive, 10_000);
            run(&table, &order).is_ok_and(|run| run.answers.contains(&(100 + fault)))
        });
        assert!(met.count() > 50, "F{fault}");
    }
}

#[test]
fn every_kind_of_order_ends_a_run() {
    let mut rng = Rng::new(3);
    for kind in OrderKind::ALL {
        for _ in 0..50 {
            let table = program_table(&mut rng);
            let order = order(&mut rng, &table, kind, 100_000);
            let run = run(&table, &order);
            assert!(run.map_or(true, |run| run.state.is_finished()), "{kind:?}");
        }
    }
}

#[test]
fn impatient_orders_meet_waits() {
    let mut rng = Rng::new(4);
    let met = (0..200).filter(|_| {
        let table = program_table(&mut rng);
        let order = order(&mut rng, &table, OrderKind::Impatient, 10_000);
        run(&table, &order).is_ok_and(|run| run.answers.contains(&16))
    });
    assert!(met.count() > 60);
}

#[test]
fn bodies_under_a_condition_are_run_and_skipped() {
    let mut rng = Rng::new(9);
    let (mut ran, mut skipped, mut both) = (0, 0, 0);
    for _ in 0..300 {
        let bytes = program_table(&mut rng);
        let order = order(&mut rng, &bytes, OrderKind::Drive, 10_000);
        let Ok(table) = Table::read(&bytes) else {
            continue;
        };
        let hands = hands_at_choose(&table, &order);
        let (runs, skips) = (hands.iter().any(|&h| h != 0), hands.contains(&0));
        ran += usize::from(runs);
        skipped += usize::from(skips);
        both += usize::from(runs && skips);
    }
    assert!(
        ran > 80 && skipped > 80 && both > 40,
        "{ran} {skipped} {both}"
    );
}

/// The hand at each CHOOSE step of a run.
fn hands_at_choose(table: &Table, order: &[usize]) -> Vec<u32> {
    let mut state = rules::start();
    let mut hands = Vec::new();
    for &activity in order {
        let own = &state.acts[activity.min(63)];
        let place = own.top().and_then(|top| table.place(top.body, top.offset));
        if place.is_some_and(|place| matches!(place.command, Command::Choose { .. })) {
            hands.push(own.hand);
        }
        let _ = rules::step(table, &mut state, activity);
    }
    hands
}

#[test]
fn each_number_of_a_table_is_met() {
    let mut rng = Rng::new(6);
    let mut met = [0; 13];
    for _ in 0..6_000 {
        let number = Table::read(&random_table(&mut rng)).map_or_else(|r| r.number(), |_| 0);
        met[usize::from(number)] += 1;
    }
    assert!(met.iter().all(|&times| times > 5), "{met:?}");
}

/// No list is answered with 4.
#[test]
fn each_number_of_a_list_is_met() {
    let mut rng = Rng::new(7);
    let mut met = [0; 13];
    let mut buffer = [0; 2_048];
    for _ in 0..4_000 {
        let (number, _) = reference::build(&list_of(&mut rng), &mut buffer);
        met[usize::from(number)] += 1;
    }
    assert!(met[0] > 4_000 / 3, "{met:?}");
    assert_eq!(met[4], 0);
    let mut others = met.iter().enumerate().filter(|(number, _)| *number != 4);
    assert!(others.all(|(_, &times)| times > 5), "{met:?}");
}

#[test]
fn each_limit_is_met_from_both_sides() {
    let mut rng = Rng::new(5);
    let counts: Vec<_> = (0..600)
        .filter_map(|_| count(&limit_table(&mut rng)).ok())
        .collect();
    let met = |test: &dyn Fn(&reference::Counts) -> bool| counts.iter().any(test);
    for over in 0..2 {
        assert!(met(&|c| c.activities == 64 + over));
        assert!(met(&|c| c.clocks == 16 + over));
        assert!(met(&|c| c.accumulators == 16 + over));
        assert!(met(&|c| c.work == 65_535 + over));
    }
}

#[test]
fn every_damage_finds_something_and_most_break_a_clause() {
    let mut found = vec![false; damage_names().len()];
    let mut unfit = vec![false; found.len()];
    for seed in 0..400 {
        let mut rng = Rng::new(seed);
        let bytes = random_table(&mut rng);
        let Ok(table) = Table::read(&bytes) else {
            continue;
        };
        let mut order = random_order(&mut rng, &bytes, 2_000);
        order.truncate(rng.below(order.len() + 1));
        let state = encode(&run(&bytes, &order).unwrap().state);
        for (index, name) in damage_names().into_iter().enumerate() {
            let mut damaged = state.clone();
            found[index] |= damage_state_by(name, &mut damaged, &mut rng);
            unfit[index] |= !decode(&damaged).is_some_and(|s| is_fit(&table, &s));
        }
    }
    assert!(found.iter().all(|&f| f));
    assert!(unfit.iter().filter(|&&u| u).count() > 45);
}

#[test]
fn strained_states_are_fit() {
    for seed in 0..200 {
        let mut rng = Rng::new(seed);
        let bytes = random_table(&mut rng);
        let Ok(table) = Table::read(&bytes) else {
            continue;
        };
        let mut order = random_order(&mut rng, &bytes, 2_000);
        order.truncate(rng.below(order.len() + 1));
        let mut state = encode(&run(&bytes, &order).unwrap().state);
        let name = strain_state(&table, &mut state, &mut rng).unwrap();
        assert!(is_fit(&table, &decode(&state).unwrap()), "{name}");
    }
}
