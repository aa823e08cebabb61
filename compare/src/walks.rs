//! The walk program itself, run in a folder of its own with the files JOB and ORDER.

use std::fs;
use std::path::{Path, PathBuf};
use std::process::Command;

use reference::generate::{order_bytes, random_order, random_table, Rng};
use reference::walk::walk;

use crate::cores;
use crate::tally::Tally;

/// How many random tables are walked.
const WALKS: u64 = 400;
/// The longest order of most of them.
const MOST: usize = 1_500;

/// The files of a walk; None for one that is not there.
struct Files {
    job: Option<Vec<u8>>,
    order: Option<Vec<u8>>,
}

/// Walks of random tables, and of files at the limits.
pub fn all_agree(seed: u64) -> Tally {
    let folder = std::env::temp_dir().join(format!("walks-{}", std::process::id()));
    let by_hand = by_hand();
    let count = WALKS + by_hand.len() as u64;
    let tally = cores::share(count, |index, tally| {
        let own = folder.join(index.to_string());
        match by_hand.get(index as usize) {
            Some(files) => walk_agrees(&own, files),
            None => walk_agrees(&own, &random(seed.wrapping_add(index))),
        }
        tally.walks += 1;
    });
    fs::remove_dir_all(&folder).expect("the folder of the walks");
    tally
}

/// The program that `rt ci` and `rt run` leave.
fn program() -> PathBuf {
    Path::new(env!("CARGO_MANIFEST_DIR")).join("../crates/walk/out/walk")
}

fn random(seed: u64) -> Files {
    let mut rng = Rng::new(seed);
    let job = random_table(&mut rng);
    let mut order = order_bytes(&random_order(&mut rng, &job, MOST));
    if rng.chance(10) {
        order.clear();
    }
    Files {
        job: Some(job),
        order: Some(order),
    }
}

/// Empty files, missing files, the longest table and one byte more, the longest order and one byte more.
fn by_hand() -> Vec<Files> {
    let files = |job: Option<&[u8]>, order: Option<&[u8]>| Files {
        job: job.map(<[u8]>::to_vec),
        order: order.map(<[u8]>::to_vec),
    };
    let printed: &[u8] = &[2, 2, 0, 5, 1, 1, 1, 0, 1, 0];
    // REPEAT 255 of a body of REPEAT 254 of a bare END, and 253 FETCH: work 65,535.
    let mut longest = vec![3, 7, 255, 1];
    longest.extend([13, 0].repeat(253));
    longest.extend([0, 7, 254, 2, 0, 0]);
    // REPEAT 2 of a CHOOSE, skipped in the first run: work 10, taken 9.
    let skipped: &[u8] = &[3, 7, 2, 1, 0, 17, 2, 12, 5, 0, 0, 0, 0, 0];
    let nexts = [&[1][..], &[1; 2_046], &[0]].concat();
    vec![
        files(None, None),
        files(Some(&[]), Some(&[])),
        files(Some(&[]), Some(&[0, 0])),
        files(None, Some(&[0])),
        files(Some(printed), None),
        files(Some(printed), Some(&[])),
        files(Some(printed), Some(&[0, 0, 0, 0, 1, 0, 0, 1, 1, 0])),
        files(Some(printed), Some(&[0, 255, 128, 64, 63, 1, 0])),
        files(Some(skipped), Some(&[0; 10])),
        files(Some(&nexts), Some(&[0; 4_100])),
        files(Some(&[&nexts[..], &[0]].concat()), Some(&[0])),
        files(Some(&[7; 70_000]), Some(&[0])),
        files(Some(&longest), Some(&[0; 65_534])),
        files(Some(&longest), Some(&[0; 65_535])),
        files(Some(&longest), Some(&[0; 65_536])),
        files(Some(&longest), Some(&[0; 200_000])),
    ]
}

/// The program's text and the reference's agree.
fn walk_agrees(folder: &Path, files: &Files) {
    fs::create_dir_all(folder).expect("a folder for the walk");
    for (name, content) in [("JOB", &files.job), ("ORDER", &files.order)] {
        if let Some(content) = content {
            fs::write(folder.join(name), content).expect("a file of the walk");
        }
    }
    let run = Command::new(program()).current_dir(folder).output();
    let run = run.expect("crates/walk/out/walk, which `rt ci` and `rt run` leave");
    let of = |file: &Option<Vec<u8>>| file.clone().unwrap_or_default();
    let expected = walk(&of(&files.job), &of(&files.order));
    let place = folder.display();
    assert!(run.status.success(), "walk's exit status in {place}");
    assert!(run.stdout == expected.as_bytes(), "walk's text in {place}");
    fs::remove_dir_all(folder).expect("the folder of the walk");
}
