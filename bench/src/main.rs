//! Prints nanoseconds a step, and a call on a list or a table, of the machine beside the second interpreter, and draws how steps grow.
//! Usage: bench FILE.svg
mod bodies;
mod finishes;
mod jobs;
mod lent;
mod lists;
mod machine;
mod measure;
mod meetings;
mod plot;
mod tables;

use jobs::Job;
use measure::{pace, Pace, CALLS};

/// A short table, and the longest.
const SHORT: usize = 48;
const LONG: usize = 2_048;

/// Activities on the short table, and bytes with eight activities.
const ACTIVITIES: [usize; 7] = [1, 2, 4, 8, 16, 32, 64];
const BYTES: [usize; 6] = [48, 128, 256, 512, 1_024, 2_048];

/// The paces of a job, a call each.
fn paces(activities: usize, bytes: usize) -> Vec<Pace> {
    let job = Job::new(activities, bytes);
    CALLS.iter().map(|&(call, _)| pace(call, &job)).collect()
}

fn heading() {
    println!("{:>10} {:>6}  {:<16} {:>10} {:>10} {:>7}", "activities", "bytes", "call", "machine", "reference", "ratio");
}

fn lines(activities: usize, bytes: usize, paces: &[Pace]) {
    for (pace, (_, name)) in paces.iter().zip(CALLS) {
        let (machine, reference, ratio) = (pace.machine, pace.reference, pace.ratio());
        println!("{activities:>10} {bytes:>6}  {name:<16} {machine:>10.0} {reference:>10.0} {ratio:>7.2}");
    }
}

/// The paces at each size, printed.
fn grown(sizes: impl Iterator<Item = (usize, usize)>) -> Vec<Vec<Pace>> {
    heading();
    sizes
        .map(|(activities, bytes)| {
            let found = paces(activities, bytes);
            lines(activities, bytes, &found);
            found
        })
        .collect()
}

/// The builder and the lister, printed.
fn calls() {
    println!("\nnanoseconds a call on a list or a table of so many bytes");
    println!("{:>6}  {:<16} {:>10} {:>10} {:>7}", "bytes", "call", "machine", "reference", "ratio");
    for bytes in [SHORT, LONG] {
        for (name, pace) in lists::paces(bytes) {
            println!("{bytes:>6}  {name:<16} {:>10.0} {:>10.0} {:>7.2}", pace.machine, pace.reference, pace.ratio());
        }
    }
}

/// The reader of tables at each size, printed.
fn readings() {
    println!("\nnanoseconds a reading of a table of so many bytes, and a byte of it");
    println!("{:>6} {:>10} {:>8} {:>10} {:>8} {:>7}", "bytes", "machine", "a byte", "reference", "a byte", "ratio");
    for bytes in BYTES {
        let pace = tables::pace(bytes);
        let (machine, reference) = (pace.machine / bytes as f64, pace.reference / bytes as f64);
        println!(
            "{bytes:>6} {:>10.0} {machine:>8.2} {:>10.0} {reference:>8.2} {:>7.2}",
            pace.machine, pace.reference, pace.ratio()
        );
    }
}

/// The ready set of sixty-four, printed.
fn ready_sets() {
    println!("\nnanoseconds a ready set of sixty-four activities, the others having arrived at a meeting");
    println!("{:<42} {:>10} {:>10} {:>7}", "state", "machine", "reference", "ratio");
    for (name, pace) in meetings::paces() {
        println!("{name:<42} {:>10.0} {:>10.0} {:>7.2}", pace.machine, pace.reference, pace.ratio());
    }
}

/// An END that waits for those inside its finish, printed.
fn finishes() {
    println!("\nnanoseconds a turn at the END of a FINISH body that waits, with sixty-three inside");
    println!("{:<42} {:>10} {:>10} {:>7}", "state", "machine", "reference", "ratio");
    for (name, pace) in finishes::paces() {
        println!("{name:<42} {:>10.0} {:>10.0} {:>7.2}", pace.machine, pace.reference, pace.ratio());
    }
}

/// Bodies begun and left, printed.
fn bodies() {
    println!("\nnanoseconds a step of one activity that begins and leaves bodies of a bare END");
    println!("{:<42} {:>10} {:>10} {:>7}", "command", "machine", "reference", "ratio");
    for (name, pace) in bodies::paces() {
        println!("{name:<42} {:>10.1} {:>10.1} {:>7.2}", pace.machine, pace.reference, pace.ratio());
    }
}

fn main() {
    let file = std::env::args().nth(1).expect("the file to draw to");
    println!("nanoseconds a step, medians; machine and reference in turn");
    grown([1, 8, 64].into_iter().flat_map(|n| [(n, SHORT), (n, LONG)]));
    calls();
    readings();
    ready_sets();
    finishes();
    bodies();
    println!("\nas the activities grow");
    let activities = grown(ACTIVITIES.into_iter().map(|n| (n, SHORT)));
    println!("\nas the table grows");
    let bytes = grown(BYTES.into_iter().map(|b| (8, b)));
    let drawing = plot::drawing(&[
        plot::Panel { title: "activities, a table of 48 bytes", sizes: &ACTIVITIES, paces: &activities },
        plot::Panel { title: "bytes of the table, 8 activities", sizes: &BYTES, paces: &bytes },
    ]);
    std::fs::write(&file, drawing).expect("the drawing is written");
}
