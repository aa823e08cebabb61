// What each call answers and leaves, on document 01's printed table.
#![forbid(unsafe_code)]

use stepmachine::{awaited, ready, registrations, run, start, step, State, VERSION};

const TABLE: [u8; 10] = [0x02, 0x02, 0x00, 0x05, 0x01, 0x01, 0x01, 0x00, 0x01, 0x00];
const ORDER: [u8; 10] = [0, 0, 0, 0, 1, 0, 0, 1, 1, 0];
const ANSWERS: [u8; 10] = [0, 0, 0, 16, 0, 0, 0, 0, 0, 15];

// A table that is turned down with 2.
const REFUSED: [u8; 2] = [0x00, 0x00];

// The state after the first steps of the order.
fn after(steps: usize) -> State {
    let mut state = [0; 13776];
    assert_eq!(start(&TABLE, &mut state), 0);
    for k in 0..steps {
        assert_eq!(step(&TABLE, &mut state, ORDER[k] as usize), ANSWERS[k], "line {}", k + 1);
    }
    state
}

#[test]
fn a_refused_start_leaves_the_state_of_zeros() {
    let mut state = [0xA5; 13776];
    assert_eq!(start(&REFUSED, &mut state), 2);
    assert_eq!(state[0], VERSION);
    assert!(state[1..].iter().all(|&byte| byte == 0));
    assert_eq!(step(&TABLE, &mut state, 0), 14);
}

#[test]
fn a_refused_step_leaves_every_byte() {
    let before = after(3);
    let mut state = before;
    for (activity, number) in [(0, 16), (2, 14), (64, 14), (usize::MAX, 14)] {
        assert_eq!(step(&TABLE, &mut state, activity), number);
        assert!(state == before);
    }
}

#[test]
fn bytes_that_encode_no_state_give_13() {
    let mut state = after(3);
    state[0] = VERSION + 1;
    let before = state;
    assert_eq!(step(&TABLE, &mut state, 1), 13);
    assert!(state == before);
    assert_eq!(ready(&TABLE, &state), Err(13));
    assert_eq!(ready(&REFUSED, &state), Err(2));
    assert_eq!(awaited(&TABLE, &state, 0), Err(13));
    assert_eq!(awaited(&REFUSED, &state, 0), Err(2));
    let mut sheet = [7; 1024];
    assert_eq!(registrations(&TABLE, &state, &mut sheet), 13);
    assert!(sheet == [0; 1024]);
}

#[test]
fn a_finish_passes_a_fault_on() {
    let table = [0x03, 0x06, 0x01, 0x00, 0x05, 0x02, 0x00, 0x00, 0x03, 0x00, 0x00];
    let mut state = [0; 13776];
    assert_eq!(start(&table, &mut state), 0);
    for (activity, number) in [(0, 0), (0, 0), (0, 16), (1, 101), (0, 108), (0, 15)] {
        assert_eq!(step(&table, &mut state, activity), number);
    }
    assert_eq!((state[464 + 4], state[464 + 5], state[672 + 5]), (3, 8, 1));
    assert_eq!(ready(&table, &state), Ok(0));
}

// REPEAT 2 of a CHOOSE and a PUT 5: skipped with hand 0, run with hand 5.
#[test]
fn choose_runs_its_body_if_the_hand_is_not_0() {
    let table = [0x03, 0x07, 0x02, 0x01, 0x00, 0x11, 0x02, 0x0C, 0x05, 0x00, 0x00, 0x00, 0x00, 0x00];
    let mut state = [0; 13776];
    assert_eq!(start(&table, &mut state), 0);
    for depth in [2, 2, 2, 2, 3, 2, 2, 1, 0] {
        assert_eq!(step(&table, &mut state, 0), 0);
        assert_eq!(state[464 + 7], depth);
    }
    assert_eq!(step(&table, &mut state, 0), 15);
    assert_eq!(state[4], 9);
}

#[test]
fn who_is_answered_with_16_waits_for_somebody() {
    for steps in 0..=ORDER.len() {
        let state = after(steps);
        for activity in (0..66).chain([usize::MAX]) {
            let expected = match step(&TABLE, &mut state.clone(), activity) {
                16 => Ok(1),
                number @ (14 | 15) => Err(number),
                _ => Ok(0),
            };
            assert_eq!(awaited(&TABLE, &state, activity), expected, "activity {activity} after {steps} steps");
        }
    }
}

// A FINISH of two children: both, one, none.
#[test]
fn the_count_falls_as_those_inside_end() {
    let table = [0x03, 0x06, 0x01, 0x00, 0x05, 0x02, 0x00, 0x05, 0x02, 0x00, 0x00, 0x00];
    let mut state = [0; 13776];
    assert_eq!(start(&table, &mut state), 0);
    for _ in 0..3 {
        assert_eq!(step(&table, &mut state, 0), 0);
    }
    for (child, count) in [(1, 2), (2, 1)] {
        assert_eq!(step(&table, &mut state, 0), 16);
        assert_eq!(awaited(&table, &state, 0), Ok(count));
        assert_eq!(step(&table, &mut state, child), 0);
    }
    assert_eq!(awaited(&table, &state, 0), Ok(0));
    assert_eq!(step(&table, &mut state, 0), 0);
}

#[test]
fn the_ready_set_has_those_who_can_step() {
    for steps in 0..=ORDER.len() {
        let state = after(steps);
        let set = ready(&TABLE, &state).unwrap();
        for activity in 0..64 {
            let answer = step(&TABLE, &mut state.clone(), activity);
            assert_eq!(set >> activity & 1 == 1, answer == 0 || answer > 100, "activity {activity} after {steps}");
        }
    }
}

#[test]
fn the_sheet_says_who_holds_the_clock() {
    let mut sheet = [7; 1024];
    assert_eq!(registrations(&TABLE, &after(3), &mut sheet), 0);
    let mut expected = [0; 1024];
    expected[0] = 2;
    expected[16] = 1;
    assert!(sheet == expected);
}

#[test]
fn a_run_is_its_steps() {
    let mut state = [0; 13776];
    let mut answers = [99; 11];
    assert_eq!(run(&TABLE, &ORDER, &mut answers, &mut state), 0);
    assert_eq!(answers[..10], ANSWERS);
    assert_eq!(answers[10], 99);
    assert!(state == after(10));
}

#[test]
fn a_refused_run_leaves_every_byte() {
    let before = after(3);
    let mut state = before;
    let mut answers = [99; 9];
    assert_eq!(run(&TABLE, &ORDER, &mut answers, &mut state), 255);
    assert_eq!(run(&REFUSED, &ORDER, &mut answers, &mut state), 2);
    assert_eq!(answers, [99; 9]);
    assert!(state == before);
}
