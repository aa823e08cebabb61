//! The rules of steps, one by one.

use reference::calls::run;
use reference::rules;
use reference::state::{Registration, Standing};
use reference::table::Table;
use reference::Run;

/// Runs a table of these bodies; each body gets its END.
fn run_bodies(bodies: &[&[u8]], order: &[usize]) -> Run {
    let mut table = vec![bodies.len() as u8];
    for body in bodies {
        table.extend(*body);
        table.push(0);
    }
    run(&table, order).expect("an accepted table")
}

fn answers(bodies: &[&[u8]], order: &[usize]) -> Vec<u8> {
    run_bodies(bodies, order).answers
}

#[test]
fn the_start() {
    let state = rules::start();
    assert_eq!((state.activities, state.steps), (1, 0));
    assert_eq!(state.acts[0].stack().len(), 1);
    assert_eq!(state.cells, [0; 16]);
}

#[test]
fn faults_of_clocks() {
    assert_eq!(answers(&[&[3, 0]], &[0]), [101]);
    assert_eq!(answers(&[&[4, 0]], &[0]), [101]);
    assert_eq!(answers(&[&[5, 1, 1], &[]], &[0]), [101]);
    assert_eq!(
        answers(&[&[2, 0, 3, 0, 5, 1, 1], &[]], &[0; 3]),
        [0, 0, 102]
    );
    assert_eq!(answers(&[&[2, 0, 2, 0]], &[0; 2]), [0, 104]);
}

#[test]
fn a_clock_not_held_comes_before_one_quiesced() {
    let bodies: [&[u8]; 2] = [&[2, 0, 3, 0, 5, 1, 0b11], &[]];
    assert_eq!(answers(&bodies, &[0; 3]), [0, 0, 101]);
}

#[test]
fn a_mask_in_an_own_finish_faults_first() {
    let bodies: [&[u8]; 3] = [&[6, 1], &[5, 2, 0x80], &[]];
    assert_eq!(answers(&bodies, &[0; 2]), [0, 103]);
    let in_repeat: [&[u8]; 4] = [&[6, 1], &[7, 1, 2], &[5, 3, 1], &[]];
    assert_eq!(answers(&in_repeat, &[0; 3]), [0, 0, 103]);
}

#[test]
fn a_finish_of_the_spawner_is_not_the_own_one() {
    // The spawned activity makes a clock of its own and hands it on.
    let bodies: [&[u8]; 4] = [&[6, 1], &[5, 2, 0], &[2, 0, 5, 3, 1], &[1]];
    assert_eq!(answers(&bodies, &[0, 0, 1, 1]), [0; 4]);
    // After the finish a mask is allowed again.
    let after: [&[u8]; 3] = [&[2, 0, 6, 1, 5, 2, 1], &[], &[]];
    assert_eq!(answers(&after, &[0; 4]), [0; 4]);
}

#[test]
fn faults_of_accumulators() {
    for command in [9, 10, 11] {
        assert_eq!(answers(&[&[command, 0]], &[0]), [105]);
        // Unbound comes before holding a clock.
        assert_eq!(answers(&[&[2, 0, command, 0]], &[0; 2]), [0, 105]);
    }
    for command in [10, 11] {
        let another: [&[u8]; 2] = [&[8, 0, 0, 2, 0, 5, 1, 1], &[command, 0]];
        assert_eq!(answers(&another, &[0, 0, 0, 1]), [0, 0, 0, 106]);
        let own: [&[u8]; 1] = [&[8, 0, 0, 2, 0, command, 0]];
        assert_eq!(answers(&own, &[0; 3]), [0, 0, 107]);
    }
}

#[test]
fn faults_come_before_waiting() {
    let bodies: [&[u8]; 2] = [&[2, 0, 8, 0, 0, 5, 1, 0, 10, 0], &[]];
    assert_eq!(answers(&bodies, &[0; 4]), [0, 0, 0, 107]);
}

#[test]
fn a_fault_drops_clocks_and_keeps_the_rest() {
    let bodies: [&[u8]; 2] = [&[12, 7, 0, 0, 0, 8, 2, 0, 2, 0, 5, 1, 1, 1], &[4, 5]];
    let run = run_bodies(&bodies, &[0, 0, 0, 0, 0, 0, 1, 0]);
    assert_eq!(run.answers, [0, 0, 0, 0, 0, 16, 101, 0]);
    let child = &run.state.acts[1];
    assert!(matches!(child.standing, Standing::Faulted(_)));
    assert_eq!((child.hand, child.spawner, child.depth), (7, 0, 0));
    assert_eq!(child.accumulators[2], 1);
    assert_eq!(child.held().count(), 0);
}

#[test]
fn a_spawned_activity_inherits() {
    let bodies: [&[u8]; 2] = [&[12, 9, 0, 0, 0, 2, 1, 2, 3, 8, 4, 1, 1, 5, 1, 0b1000], &[]];
    let run = run_bodies(&bodies, &[0; 7]);
    let child = &run.state.acts[1];
    assert_eq!((child.hand, child.spawner), (9, 0));
    assert_eq!(child.accumulators, [0, 0, 0, 0, 1, 0, 0, 0]);
    assert_eq!(child.held().count(), 1);
    assert_eq!(child.holds[3], run.state.acts[0].holds[3]);
    assert_eq!(child.holds[3].phase, 1);
    assert_eq!(child.holds[3].registration, Registration::Live);
}

#[test]
fn next_without_clocks_takes_two_steps() {
    let run = run_bodies(&[&[1]], &[0, 0, 0]);
    assert_eq!(run.answers, [0; 3]);
    assert!(run.state.is_finished());
}

#[test]
fn a_slow_holder_misses_no_phase() {
    let bodies: [&[u8]; 2] = [&[2, 0, 5, 1, 1, 1, 1], &[1, 1]];
    // Main arrives, waits for 1, passes, arrives again and waits until 1 passes and arrives.
    let order = [0, 0, 0, 0, 1, 0, 0, 0, 1, 0, 1, 0];
    assert_eq!(
        answers(&bodies, &order),
        [0, 0, 0, 16, 0, 0, 0, 16, 0, 16, 0, 0]
    );
}

#[test]
fn resume_lets_others_pass() {
    let bodies: [&[u8]; 2] = [&[2, 0, 5, 1, 1, 1], &[3, 0, 3, 0, 13, 0, 1]];
    let run = run_bodies(&bodies, &[0, 0, 0, 0, 1, 1, 0, 1, 1, 1]);
    assert_eq!(run.answers, [0, 0, 0, 16, 0, 0, 0, 0, 0, 0]);
    assert_eq!(run.state.acts[1].holds[0].phase, 1);
}

#[test]
fn dropping_and_ending_let_others_pass() {
    let dropping: [&[u8]; 2] = [&[2, 0, 5, 1, 1, 1], &[4, 0, 13, 0]];
    assert_eq!(answers(&dropping, &[0, 0, 0, 0, 1, 0]), [0, 0, 0, 16, 0, 0]);
    let ending: [&[u8]; 2] = [&[2, 0, 5, 1, 1, 1], &[]];
    assert_eq!(answers(&ending, &[0, 0, 0, 0, 1, 0]), [0, 0, 0, 16, 0, 0]);
}

#[test]
fn a_finish_waits_for_grandchildren() {
    let bodies: [&[u8]; 4] = [&[6, 1], &[5, 2, 0], &[5, 3, 0], &[13, 0]];
    // 1 spawns 2 and ends; main waits for 2.
    let order = [0, 0, 0, 1, 1, 0, 2, 0, 2, 0, 0];
    assert_eq!(
        answers(&bodies, &order),
        [0, 0, 16, 0, 0, 16, 0, 16, 0, 0, 0]
    );
}

#[test]
fn a_finish_does_not_wait_for_those_outside() {
    let bodies: [&[u8]; 4] = [&[5, 3, 0, 6, 1], &[5, 2, 0], &[], &[13, 0]];
    let order = [0, 0, 0, 0, 2, 0, 0];
    assert_eq!(answers(&bodies, &order), [0, 0, 0, 16, 0, 0, 0]);
}

#[test]
fn a_nested_finish_waits_for_its_own() {
    // 1 is inside the outer finish only, 2 inside both.
    let bodies: [&[u8]; 5] = [&[6, 1], &[5, 4, 0, 6, 2], &[5, 3, 0], &[], &[13, 0]];
    let order = [0, 0, 0, 0, 0, 2, 0, 0, 1, 0, 1, 0, 0];
    assert_eq!(
        answers(&bodies, &order),
        [0, 0, 0, 0, 16, 0, 0, 16, 0, 16, 0, 0, 0]
    );
}

#[test]
fn a_read_waits_for_every_descendant() {
    let bodies: [&[u8]; 3] = [&[8, 0, 0, 5, 1, 0, 10, 0], &[5, 2, 0], &[13, 0]];
    let order = [0, 0, 0, 1, 1, 0, 2, 0, 2, 0];
    assert_eq!(answers(&bodies, &order), [0, 0, 16, 0, 0, 16, 0, 16, 0, 0]);
}

#[test]
fn a_read_does_not_wait_for_siblings() {
    let bodies: [&[u8]; 2] = [&[5, 1, 0, 5, 1, 0], &[8, 0, 2, 11, 0, 10, 0]];
    assert_eq!(answers(&bodies, &[0, 0, 1, 1, 1, 1]), [0; 6]);
}

#[test]
fn repeat_runs_its_body_n_times() {
    let bodies: [&[u8]; 2] = [&[12, 1, 0, 0, 0, 7, 3, 1], &[15, 5]];
    let run = run_bodies(&bodies, &[0; 9]);
    assert_eq!(run.answers, [0; 9]);
    assert!(run.state.is_finished());
    assert_eq!(run.state.cells[5], 3);
}

#[test]
fn repeat_0_takes_one_step() {
    let run = run_bodies(&[&[7, 0, 1], &[15, 5]], &[0, 0]);
    assert_eq!(run.answers, [0, 0]);
    assert!(run.state.is_finished());
}

#[test]
fn accumulators_reduce() {
    let offered = |operator: u8, values: [u32; 2]| {
        let mut body = vec![8, 0, operator];
        for value in values {
            body.push(12);
            body.extend(value.to_le_bytes());
            body.extend([9, 0]);
        }
        body.extend([10, 0]);
        run_bodies(&[&body], &[0; 6]).state.acts[0].hand
    };
    assert_eq!(offered(0, [u32::MAX, 3]), 2);
    assert_eq!(offered(1, [7, 5]), 5);
    assert_eq!(offered(2, [7, 5]), 7);
}

#[test]
fn a_new_accumulator_holds_its_neutral_value() {
    let hand = |operator| run_bodies(&[&[8, 0, operator, 10, 0]], &[0, 0]).state.acts[0].hand;
    assert_eq!(hand(0), 0);
    assert_eq!(hand(1), 4_294_967_295);
    assert_eq!(hand(2), 0);
}

#[test]
fn rebinding_leaves_the_spawners_name() {
    // The child offers 2 to main's accumulator, binds the name anew and offers to its own.
    let bodies: [&[u8]; 2] = [
        &[8, 0, 0, 12, 2, 0, 0, 0, 5, 1, 0, 10, 0],
        &[9, 0, 8, 0, 0, 9, 0, 9, 0, 10, 0],
    ];
    let run = run_bodies(&bodies, &[0, 0, 0, 1, 1, 1, 1, 1, 1, 0]);
    assert_eq!(run.answers, [0; 10]);
    assert_eq!(run.state.acts[0].hand, 2);
    assert_eq!(run.state.acts[1].hand, 4);
    assert_eq!(run.state.acts[1].accumulators[0], 2);
}

#[test]
fn reset_and_cells() {
    let body = [
        8, 1, 0, 12, 5, 0, 0, 0, 11, 1, 14, 3, 15, 3, 13, 3, 9, 1, 10, 1,
    ];
    let run = run_bodies(&[&body], &[0; 8]);
    // RESET to 5, the cell becomes 5 and 10, the hand 10, OFFER makes 15.
    assert_eq!(run.state.cells[3], 10);
    assert_eq!(run.state.acts[0].hand, 15);
}

#[test]
fn atom_does_its_commands_in_one_step() {
    let body = [12, 1, 0, 0, 0, 16, 4, 14, 0, 15, 0, 13, 0, 15, 15];
    let run = run_bodies(&[&body], &[0, 0, 0]);
    assert!(run.state.is_finished());
    assert_eq!(run.state.cells[0], 2);
    assert_eq!(run.state.cells[15], 2);
    assert_eq!(run.state.acts[0].hand, 2);
}

#[test]
fn the_sheet_shows_holders() {
    let table = [2, 2, 5, 2, 6, 5, 1, 0x40, 3, 5, 0, 1, 0];
    let run = run(&table, &[0, 0, 0, 0, 1]).unwrap();
    let sheet = rules::registrations(&run.state);
    assert_eq!(sheet[0][..3], [2, 1, 0]);
    assert_eq!(sheet[1][..3], [0, 2, 0]);
    let ready = rules::ready(&Table::read(&table).unwrap(), &run.state);
    assert_eq!(ready, 0b01);
}
