//! Nanoseconds a call that writes into lent room, of the machine and of the second interpreter, in turn.
use crate::measure::{in_turn, timed, Pace};

/// The calls that are timed together.
const TIMES: usize = 200;

/// Nanoseconds a call into a copy of what is lent, and what it wrote. Its answer must be this one.
fn calls<T: Clone, A: PartialEq>(lent: &[T], answer: &A, call: &dyn Fn(&mut [T]) -> A) -> (f64, Vec<T>) {
    let mut room = lent.to_vec();
    let (ns, answered) = timed(TIMES, || (1..TIMES).fold(call(&mut room), |_, _| call(&mut room)));
    assert!(answered == *answer, "the call is accepted");
    (ns, room)
}

/// Both, in turn, into what is lent. They must give this answer and write the same.
pub fn pace<T: Clone + PartialEq, A: PartialEq>(
    lent: &[T], answer: A, machine: impl Fn(&mut [T]) -> A, reference: impl Fn(&mut [T]) -> A,
) -> Pace {
    in_turn(|| calls(lent, &answer, &machine), || calls(lent, &answer, &reference))
}
