//! Compares the machine over bytes with the second interpreter: at every point the answer, the whole state, the ready set, the sheet and
//! how many activities wait for.
//! Usage: compare TABLES SEED. The same seed gives the same tables, orders and states.

mod cases;
mod cores;
mod damaged;
mod features;
mod lists;
mod machine;
mod points;
mod runs;
mod sweep;
mod tally;
mod walks;

use std::time::Instant;

use tally::Tally;

fn main() {
    let mut arguments = std::env::args().skip(1);
    let mut argument = |default| {
        arguments
            .next()
            .map_or(default, |a| a.parse().expect("a number"))
    };
    let tables = argument(20_000);
    let seed = argument(1);
    exit_on_difference();
    println!("seed {seed}");
    let mut whole = Tally::default();
    timed("cases", || cases::all_agree(&mut whole));
    timed("walks", || whole.add(walks::all_agree(seed)));
    timed("bytes changed", || whole.add(sweep::all_agree(seed)));
    timed("tables", || {
        whole.add(cores::share(tables, |index, tally| {
            runs::table_agrees(seed, index, tally);
        }));
    });
    timed("lists", || {
        whole.add(cores::share(tables, |index, tally| {
            lists::list_agrees(seed, index, tally);
        }));
    });
    let features = features::names();
    whole.print(&features);
    let missing = whole.missing(&features);
    if !missing.is_empty() {
        println!("not met: {}", missing.join(", "));
        std::process::exit(1);
    }
}

/// A difference is told and ends the comparison at once.
fn exit_on_difference() {
    std::panic::set_hook(Box::new(|difference| {
        eprintln!("difference: {difference}");
        std::process::exit(1);
    }));
}

/// Tells how long a part took.
fn timed(part: &str, work: impl FnOnce()) {
    let since = Instant::now();
    work();
    println!("{part}: {:.1} s", since.elapsed().as_secs_f64());
}
