//! The examples: what the walk of each prints.

use std::fs;
use std::path::Path;

use reference::calls::accounted;
use reference::walk::walk;

fn folder(name: &str) -> std::path::PathBuf {
    Path::new(env!("CARGO_MANIFEST_DIR"))
        .join("../examples")
        .join(name)
}

#[test]
fn each_walk_prints_what_is_expected() {
    let folders = fs::read_dir(folder("")).expect("the examples");
    let mut walked = 0;
    for example in folders.map(|entry| entry.expect("an example").path()) {
        let file = |name: &str| fs::read(example.join(name)).expect("a file of an example");
        let text = walk(&file("JOB"), &file("ORDER"));
        assert_eq!(text.as_bytes(), file("expected"), "{}", example.display());
        walked += 1;
    }
    assert!(walked > 7);
}

#[test]
fn the_sum_without_the_string_that_reads_zero() {
    let file = |name: &str| fs::read(folder("skipped").join(name)).expect("a file of the example");
    let order: Vec<usize> = file("ORDER").into_iter().map(usize::from).collect();
    let (run, account) = accounted(&file("JOB"), &order).expect("an accepted table");
    assert!(run.state.is_finished());
    assert_eq!((account.spared, account.skipped), (3, 1));
    assert_eq!((run.state.cells[8], run.state.cells[15]), (12, 12));
}
