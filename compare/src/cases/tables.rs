//! Numbers 1 to 12: tables by hand, and what comes first where two apply.

use reference::bytes::start;

use crate::machine;
use crate::runs::refused_agrees;
use crate::tally::Tally;

/// Tables with their numbers, 0 for one that is accepted.
const CASES: &[(&str, &[u8], u8)] = &[
    ("no bytes", &[], 1),
    ("one byte", &[1], 1),
    ("1 before 2", &[0], 1),
    ("no bodies", &[0, 0], 2),
    ("17 bodies", &[17, 0], 2),
    ("2 before 3", &[0, 18], 2),
    ("the least table", &[1, 0], 0),
    ("a CHOOSE", &[2, 17, 1, 0, 0], 0),
    ("byte 12", &[1, 18], 3),
    ("byte 13", &[1, 19], 3),
    ("byte FF", &[1, 255, 0], 3),
    ("no END", &[1, 1], 4),
    ("no second body", &[2, 0], 4),
    ("CLOCK cut", &[1, 2], 4),
    ("CHOOSE cut", &[1, 17], 4),
    ("CHOOSE cut after a command", &[1, 13, 0, 17], 4),
    ("PUT cut", &[1, 12, 1, 2, 3], 4),
    ("4 before 5", &[1, 8, 9], 4),
    ("4 before 6", &[1, 5, 9], 4),
    ("CLOCK 8", &[1, 2, 8, 0], 5),
    ("RESUME 8", &[1, 3, 8, 0], 5),
    ("DROP 8", &[1, 4, 8, 0], 5),
    ("ACC 8", &[1, 8, 8, 0, 0], 5),
    ("ACC of operator 3", &[1, 8, 0, 3, 0], 5),
    ("OFFER 8", &[1, 9, 8, 0], 5),
    ("READ 8", &[1, 10, 8, 0], 5),
    ("RESET 8", &[1, 11, 8, 0], 5),
    ("FETCH 16", &[1, 13, 16, 0], 5),
    ("STORE 16", &[1, 14, 16, 0], 5),
    ("ADD 16", &[1, 15, 16, 0], 5),
    ("ATOM 0", &[1, 16, 0, 0], 5),
    ("ATOM 9", &[1, 16, 9, 13, 0, 0], 5),
    ("5 before a later 3", &[1, 2, 8, 18], 5),
    ("3 before a later 5", &[1, 18, 2, 8], 3),
    ("FINISH of itself", &[1, 6, 0, 0], 6),
    ("ASYNC of a body that is not there", &[2, 5, 2, 0, 0, 0], 6),
    ("REPEAT of a lower body", &[2, 0, 7, 1, 0, 0], 6),
    ("CHOOSE of itself", &[1, 17, 0, 0], 6),
    ("CHOOSE of a lower body", &[2, 0, 17, 0, 0], 6),
    ("CHOOSE of its own body, the last", &[2, 0, 17, 1, 0], 6),
    ("CHOOSE of a body that is not there", &[2, 17, 2, 0, 0], 6),
    ("CHOOSE 255", &[2, 17, 255, 0, 0], 6),
    ("6 of CHOOSE before a later 3", &[1, 17, 0, 18], 6),
    ("6 before a later 4", &[1, 6, 0], 6),
    ("NEXT in an ATOM", &[1, 16, 1, 1, 0], 7),
    ("END in an ATOM", &[1, 16, 2, 13, 0, 0], 7),
    ("ATOM in an ATOM", &[1, 16, 1, 16, 1, 13, 0, 0], 7),
    ("CHOOSE in an ATOM", &[2, 16, 1, 17, 1, 0, 0], 7),
    ("CHOOSE last in an ATOM", &[2, 16, 2, 13, 0, 17, 1, 0, 0], 7),
    ("3 before 7", &[1, 16, 1, 18], 3),
    ("3 before 7, byte 13", &[1, 16, 1, 19], 3),
    ("4 before 7, CHOOSE", &[1, 16, 1, 17], 4),
    ("6 before 7, CHOOSE", &[1, 16, 1, 17, 0, 0], 6),
    ("4 before 7", &[1, 16, 1, 5], 4),
    ("5 before 7", &[1, 16, 1, 2, 9, 0], 5),
    ("6 before 7", &[1, 16, 1, 6, 0, 0], 6),
    ("an ATOM cut between its commands", &[1, 16, 2, 13, 0], 4),
    ("a byte after the last body", &[1, 0, 0], 8),
    ("64 activities", &[3, 7, 63, 1, 0, 5, 2, 0, 0, 0], 0),
    ("65 activities", &[3, 7, 64, 1, 0, 5, 2, 0, 0, 0], 9),
    (
        "64 by CHOOSE",
        &[4, 7, 63, 1, 0, 17, 2, 0, 5, 3, 0, 0, 0],
        0,
    ),
    (
        "65 by CHOOSE",
        &[4, 7, 64, 1, 0, 17, 2, 0, 5, 3, 0, 0, 0],
        9,
    ),
    ("8 before 9", &[3, 7, 64, 1, 0, 5, 2, 0, 0, 0, 0], 8),
    ("9 before 10", &[3, 7, 64, 1, 0, 5, 2, 0, 2, 0, 0, 0], 9),
    ("16 clocks", &[2, 7, 16, 1, 0, 2, 0, 4, 0, 0], 0),
    ("17 clocks", &[2, 7, 17, 1, 0, 2, 0, 4, 0, 0], 10),
    (
        "16 clocks by CHOOSE",
        &[3, 7, 16, 1, 0, 17, 2, 0, 2, 0, 0],
        0,
    ),
    (
        "17 clocks by CHOOSE",
        &[3, 7, 17, 1, 0, 17, 2, 0, 2, 0, 0],
        10,
    ),
    ("10 before 11", &[2, 7, 17, 1, 0, 2, 0, 8, 0, 0, 0], 10),
    ("16 accumulators", &[2, 7, 16, 1, 0, 8, 0, 0, 0], 0),
    ("17 accumulators", &[2, 7, 17, 1, 0, 8, 0, 0, 0], 11),
    (
        "16 accumulators by CHOOSE",
        &[3, 7, 16, 1, 0, 17, 2, 0, 8, 0, 0, 0],
        0,
    ),
    (
        "17 accumulators by CHOOSE",
        &[3, 7, 17, 1, 0, 17, 2, 0, 8, 0, 0, 0],
        11,
    ),
    (
        "11 before 12",
        &[3, 7, 255, 1, 0, 7, 255, 2, 0, 8, 0, 0, 0],
        11,
    ),
    (
        "9 before 12",
        &[4, 7, 255, 1, 0, 7, 255, 2, 0, 5, 3, 0, 0, 0],
        9,
    ),
    ("12 alone", &[3, 7, 255, 1, 0, 7, 255, 2, 0, 1, 0], 12),
    (
        "work 65,282 by CHOOSE",
        &[4, 7, 255, 1, 0, 17, 2, 0, 7, 252, 3, 0, 0],
        0,
    ),
    (
        "work 65,537 by CHOOSE",
        &[4, 7, 255, 1, 0, 17, 2, 0, 7, 253, 3, 0, 0],
        12,
    ),
    (
        "nothing in a REPEAT 0",
        &[4, 7, 0, 1, 0, 7, 255, 2, 0, 5, 3, 0, 0, 0],
        0,
    ),
];

/// Each table by hand, and one that is too long.
pub fn all_agree(tally: &mut Tally) {
    let long = vec![0; 2_049];
    let long = ("1 before 2 in 2,049 bytes", &long[..], 1);
    for &(name, table, number) in CASES.iter().chain([&long]) {
        let found = machine::start(table);
        assert_eq!(found.0, number, "{name}");
        assert!(found == start(table), "{name}");
        if number != 0 {
            refused_agrees(table, number);
        }
        tally.meet(number);
    }
}
