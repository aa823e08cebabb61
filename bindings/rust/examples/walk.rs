// Document 01's printed table, one step a call.
#![forbid(unsafe_code)]

const TABLE: [u8; 10] = [0x02, 0x02, 0x00, 0x05, 0x01, 0x01, 0x01, 0x00, 0x01, 0x00];
const ORDER: [u8; 10] = [0, 0, 0, 0, 1, 0, 0, 1, 1, 0];

// The steps taken: four bytes at 4, lowest first.
fn taken(state: &stepmachine::State) -> u32 {
    u32::from_le_bytes([state[4], state[5], state[6], state[7]])
}

fn main() {
    let mut state = [0; 13776];
    let answer = stepmachine::start(&TABLE, &mut state);
    if answer != 0 {
        println!("table {answer}");
        std::process::exit(1);
    }
    println!("line act answer taken");
    for (k, &activity) in ORDER.iter().enumerate() {
        let answer = stepmachine::step(&TABLE, &mut state, activity as usize);
        print!("{} {activity} {answer} {}", k + 1, taken(&state));
        match stepmachine::awaited(&TABLE, &state, activity as usize) {
            Ok(count) if answer == 16 => println!(" {count}"),
            _ => println!(),
        }
    }
    let spawned = state[1] as usize;
    let ended = (0..spawned).filter(|i| state[464 + 208 * i + 4] >= 2).count();
    println!("taken {} ended {ended} of {spawned}", taken(&state));
}
