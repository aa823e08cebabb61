//! Tables near a limit.

use super::codes::*;
use super::rng::Rng;

/// A table that stands just below or just above one of the limits.
pub fn limit_table(rng: &mut Rng) -> Vec<u8> {
    let over = rng.chance(40);
    match rng.below(18) {
        0 | 1 => flat_activities(rng, over),
        2 | 3 => activity_tree(rng, over),
        4..=6 => limit_clocks(rng, over),
        7..=9 => limit_accumulators(rng, over),
        10 => limit_work(rng, over),
        11 | 12 => doubled_work(rng, over),
        13 | 14 => limit_bodies(rng, over),
        15 => limit_length(rng, over),
        _ => short_table(rng),
    }
}

fn table_of(bodies: &[Vec<u8>]) -> Vec<u8> {
    let mut table = vec![bodies.len() as u8];
    table.extend(bodies.concat());
    table
}

/// 63 or 64 spawned by REPEAT or one by one, perhaps on a clock.
fn flat_activities(rng: &mut Rng, over: bool) -> Vec<u8> {
    let spawned = 63 + u8::from(over);
    let clocked = rng.chance(60);
    let mask = u8::from(clocked);
    let mut main = if clocked { vec![CLOCK, 0] } else { vec![] };
    let mut bodies = vec![vec![]];
    if rng.chance(50) {
        main.extend([REPEAT, spawned, 1]);
        bodies.push(vec![ASYNC, 2, mask, END]);
    } else {
        for _ in 0..spawned {
            main.extend([ASYNC, 2, mask]);
        }
        bodies.push(vec![END]);
    }
    if rng.chance(70) {
        main.push(NEXT);
    }
    main.push(END);
    bodies[0] = main;
    bodies.push(leaf(rng));
    table_of(&bodies)
}

/// What a spawned body does in a table near a limit.
fn leaf(rng: &mut Rng) -> Vec<u8> {
    let mut code = Vec::new();
    for _ in 0..rng.below(4) {
        match rng.below(4) {
            0 | 1 => code.push(NEXT),
            2 => code.extend([FETCH, 0]),
            _ => code.extend([ATOM, 2, ADD, 1, STORE, 2]),
        }
    }
    code.push(END);
    code
}

/// A tree: each of five levels spawns twice, 62 in all; main spawns one or two more.
fn activity_tree(rng: &mut Rng, over: bool) -> Vec<u8> {
    let mask = if rng.chance(60) { 1 } else { 0 };
    let finish = mask == 0 && rng.chance(50);
    let mut bodies = Vec::new();
    for level in 0..5u8 {
        let mut code = Vec::new();
        if level == 0 {
            code.extend([CLOCK, 0, ACC, 1, 0, PUT, 1, 0, 0, 0]);
            for _ in 0..1 + u8::from(over) {
                code.extend([ASYNC, 5, mask]);
            }
        }
        code.extend([ASYNC, level + 1, mask, ASYNC, level + 1, mask]);
        if rng.chance(40) {
            code.push(NEXT);
        }
        code.extend([OFFER, 1]);
        if level == 0 {
            code.extend([DROP, 0, READ, 1, STORE, 0]);
        }
        code.push(END);
        bodies.push(code);
    }
    bodies.push(leaf(rng));
    if finish {
        if rng.chance(30) {
            // No clock is held: the last level faults.
            bodies[5].splice(0..0, [DROP, 7]);
        }
        wrap_in_finish(&mut bodies);
    }
    table_of(&bodies)
}

/// Puts a new body 0 before the bodies that runs the old one in a finish.
fn wrap_in_finish(bodies: &mut Vec<Vec<u8>>) {
    for code in bodies.iter_mut() {
        raise_names(code);
    }
    bodies.insert(0, vec![FINISH, 1, END]);
}

/// Raises each body named in the code by one.
fn raise_names(code: &mut [u8]) {
    let mut at = 0;
    while at < code.len() {
        let length = match code[at] {
            END | NEXT => 1,
            ASYNC => {
                code[at + 1] += 1;
                3
            }
            REPEAT => {
                code[at + 2] += 1;
                3
            }
            FINISH | CHOOSE => {
                code[at + 1] += 1;
                2
            }
            ACC => 3,
            PUT => 5,
            _ => 2,
        };
        at += length;
    }
}

/// 16 or 17 clocks: in rounds, by REPEAT, or made by spawned activities.
fn limit_clocks(rng: &mut Rng, over: bool) -> Vec<u8> {
    let clocks = 16 + u8::from(over);
    match rng.below(3) {
        0 => {
            let mut main = Vec::new();
            for _ in 0..clocks {
                let name = rng.below(8) as u8;
                main.extend([CLOCK, name]);
                if rng.chance(30) {
                    main.push(NEXT);
                }
                main.extend([DROP, name]);
            }
            main.push(END);
            table_of(&[main])
        }
        1 => {
            let name = rng.below(8) as u8;
            table_of(&[
                vec![REPEAT, clocks, 1, END],
                vec![CLOCK, name, NEXT, DROP, name, END],
            ])
        }
        _ => {
            let mut main: Vec<u8> = (0..8).flat_map(|name| [CLOCK, name]).collect();
            main.extend([REPEAT, clocks - 8, 1, NEXT, END]);
            let name = rng.below(8) as u8;
            let child = vec![DROP, name, NEXT, CLOCK, name, NEXT, NEXT, END];
            table_of(&[main, vec![ASYNC, 2, 0xFF, END], child])
        }
    }
}

/// 16 or 17 accumulators: rebound by REPEAT, one by one, or made by spawned activities.
fn limit_accumulators(rng: &mut Rng, over: bool) -> Vec<u8> {
    let accumulators = 16 + u8::from(over);
    match rng.below(3) {
        0 => {
            let mut main = Vec::new();
            for _ in 0..accumulators {
                let name = rng.below(8) as u8;
                main.extend([ACC, name, rng.below(3) as u8, OFFER, name, READ, name]);
            }
            main.push(END);
            table_of(&[main])
        }
        1 => {
            let operator = rng.below(3) as u8;
            table_of(&[
                vec![PUT, 7, 0, 0, 0, REPEAT, accumulators, 1, READ, 3, END],
                vec![ACC, 3, operator, OFFER, 3, END],
            ])
        }
        _ => {
            let mut main = vec![ACC, 0, 0, PUT, 3, 0, 0, 0];
            main.extend([REPEAT, accumulators - 1, 1, READ, 0, STORE, 4, END]);
            let child = vec![OFFER, 0, ACC, 0, 2, OFFER, 0, READ, 0, RESET, 0, END];
            table_of(&[main, vec![ASYNC, 2, 0, END], child])
        }
    }
}

/// Work 65,535 or 65,536: nested repeats, the rest filled up with FETCH.
fn limit_work(rng: &mut Rng, over: bool) -> Vec<u8> {
    let target = 65_535 + usize::from(over);
    loop {
        let inner_fill = rng.below(6);
        let inner = rng.between(40, 255);
        let outer = rng.between(40, 255);
        // Body 2 has work fill + 1, body 1 two more than its runs, main two more again.
        let work = outer * (inner * (inner_fill + 1) + 2) + 2;
        if work > target || target - work > 900 {
            continue;
        }
        let mut main = vec![REPEAT, outer as u8, 1];
        main.extend([FETCH, 0].repeat(target - work));
        main.push(END);
        let mut last = [ADD, 3].repeat(inner_fill);
        last.push(END);
        return table_of(&[main, vec![REPEAT, inner as u8, 2, END], last]);
    }
}

/// Work 65,535 or 65,536 without a great REPEAT: each of 15 bodies runs the next one twice.
fn doubled_work(rng: &mut Rng, over: bool) -> Vec<u8> {
    let mut all = Vec::new();
    for body in 1..15u8 {
        all.push(match rng.below(4) {
            0 => vec![FINISH, body, FINISH, body, END],
            1 => vec![FINISH, body, REPEAT, 1, body, END],
            2 => vec![CHOOSE, body, FINISH, body, END],
            _ => vec![REPEAT, 1, body, FINISH, body, END],
        });
    }
    all.push(vec![END]);
    // The work is 65,533 so far. With hand 0 each CHOOSE spares the work of its body.
    let mut more = vec![PUT, rng.below(2) as u8, 0, 0, 0];
    more.extend([STORE, 3].repeat(1 + usize::from(over)));
    all[0].splice(0..0, more);
    table_of(&all)
}

/// 16 or 17 bodies in a chain.
fn limit_bodies(rng: &mut Rng, over: bool) -> Vec<u8> {
    let bodies = 16 + u8::from(over);
    let mut all = Vec::new();
    for body in 0..bodies - 1 {
        match rng.below(4) {
            0 => all.push(vec![FINISH, body + 1, END]),
            1 => all.push(vec![REPEAT, rng.between(1, 2) as u8, body + 1, END]),
            2 => all.push(vec![PUT, 1, 0, 0, 0, CHOOSE, body + 1, END]),
            _ => all.push(vec![NEXT, FINISH, body + 1, FETCH, 1, END]),
        }
    }
    all.push(vec![END]);
    table_of(&all)
}

/// 2,048 or 2,049 bytes.
fn limit_length(rng: &mut Rng, over: bool) -> Vec<u8> {
    let length = 2_048 + usize::from(over);
    let mut table = vec![1];
    while table.len() + 1 < length {
        let room = length - 1 - table.len();
        match rng.below(3) {
            0 if room >= 5 => {
                table.push(PUT);
                table.extend((rng.word() as u32).to_le_bytes());
            }
            1 if room >= 2 => table.extend([ADD, rng.below(16) as u8]),
            _ => table.push(NEXT),
        }
    }
    table.push(END);
    table
}

/// Fewer than 4 bytes.
fn short_table(rng: &mut Rng) -> Vec<u8> {
    let length = rng.below(4);
    (0..length).map(|_| rng.below(3) as u8).collect()
}
