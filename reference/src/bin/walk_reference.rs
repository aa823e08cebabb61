//! The walk program: reads JOB and ORDER in the current folder and prints the walk.

use std::io::{self, Write};

fn main() -> io::Result<()> {
    // A file that cannot be read counts as empty.
    let job = std::fs::read("JOB").unwrap_or_default();
    let order = std::fs::read("ORDER").unwrap_or_default();
    let text = reference::walk::walk(&job, &order);
    io::stdout().write_all(text.as_bytes())
}
