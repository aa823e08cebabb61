//! The step machine's calls over lent bytes. The state's layout is in docs/STATE-BYTES.md.
//!
//! Each call answers the documents' number: 0, 101 to 108 for fault F1 to F8, or 1 to 18; or 255 where a run's answers have too little room. A
//! refused start writes the state of zeros, and a refused sheet is zeros; every other refused call leaves every lent byte as it was.

/// The version of the layout, a state's first byte.
pub const VERSION: u8 = 1;

/// A state as bytes.
pub type State = [u8; 13776];

/// The standing sheet: 64 rows of 16 bytes, by activity and clock number.
pub type Sheet = [u8; 1024];

/// A command of a list: its byte, its operand bytes as they stand in a table, then bytes that it lacks. The k commands of an ATOM
/// are entries of their own after it.
pub type Entry = [u8; 5];

mod calls {
    use super::Entry;

    extern "C" {
        pub fn stepmachine_start(table: *const u8, table_bytes: usize, state: *mut u8, state_bytes: usize) -> u8;
        pub fn stepmachine_step(table: *const u8, table_bytes: usize, state: *mut u8, state_bytes: usize, activity: usize) -> u8;
        pub fn stepmachine_ready(table: *const u8, table_bytes: usize, state: *const u8, state_bytes: usize, set: *mut u64) -> u8;
        pub fn stepmachine_awaited(
            table: *const u8, table_bytes: usize, state: *const u8, state_bytes: usize, activity: usize, count: *mut u8,
        ) -> u8;
        pub fn stepmachine_registrations(
            table: *const u8, table_bytes: usize, state: *const u8, state_bytes: usize, sheet: *mut u8, sheet_bytes: usize,
        ) -> u8;
        pub fn stepmachine_run(
            table: *const u8, table_bytes: usize, order: *const u8, order_bytes: usize, answers: *mut u8, answers_bytes: usize,
            state: *mut u8, state_bytes: usize,
        ) -> u8;
        pub fn stepmachine_build(entries: *const Entry, count: usize, table: *mut u8, table_bytes: usize, length: *mut usize) -> u8;
        pub fn stepmachine_commands(
            table: *const u8, table_bytes: usize, entries: *mut Entry, count: usize, found: *mut usize,
        ) -> u8;
    }
}

/// The start state of a table.
pub fn start(table: &[u8], state: &mut State) -> u8 {
    // Sound: each pointer is valid for the length beside it, and what is written is borrowed alone. So below.
    unsafe { calls::stepmachine_start(table.as_ptr(), table.len(), state.as_mut_ptr(), state.len()) }
}

/// A step of an activity that the host picks.
pub fn step(table: &[u8], state: &mut State, activity: usize) -> u8 {
    unsafe { calls::stepmachine_step(table.as_ptr(), table.len(), state.as_mut_ptr(), state.len(), activity) }
}

/// Who can step, bit i for activity i; or the number for which the call is refused.
pub fn ready(table: &[u8], state: &State) -> Result<u64, u8> {
    let mut set = 0;
    match unsafe { calls::stepmachine_ready(table.as_ptr(), table.len(), state.as_ptr(), state.len(), &mut set) } {
        0 => Ok(set),
        number => Err(number),
    }
}

/// How many activities an activity waits for, 0 for one that can step; or the number for which the call is refused, 1 to 15.
pub fn awaited(table: &[u8], state: &State, activity: usize) -> Result<u8, u8> {
    let mut count = 0;
    match unsafe {
        calls::stepmachine_awaited(table.as_ptr(), table.len(), state.as_ptr(), state.len(), activity, &mut count)
    } {
        0 => Ok(count),
        number => Err(number),
    }
}

/// The standing sheet; zeros where the call is refused.
pub fn registrations(table: &[u8], state: &State, sheet: &mut Sheet) -> u8 {
    unsafe {
        calls::stepmachine_registrations(table.as_ptr(), table.len(), state.as_ptr(), state.len(), sheet.as_mut_ptr(), sheet.len())
    }
}

/// A run from the start state: each step's answer, and the state after the last. Too little room for the answers gives 255.
pub fn run(table: &[u8], order: &[u8], answers: &mut [u8], state: &mut State) -> u8 {
    unsafe {
        calls::stepmachine_run(
            table.as_ptr(), table.len(), order.as_ptr(), order.len(), answers.as_mut_ptr(), answers.len(), state.as_mut_ptr(),
            state.len(),
        )
    }
}

/// The table of a list of commands: its length, or the number for which the table would be refused. Bytes that a command lacks are
/// not looked at. A buffer shorter than the table gives 18.
pub fn build(entries: &[Entry], table: &mut [u8]) -> Result<usize, u8> {
    let mut length = 0;
    match unsafe { calls::stepmachine_build(entries.as_ptr(), entries.len(), table.as_mut_ptr(), table.len(), &mut length) } {
        0 => Ok(length),
        number => Err(number),
    }
}

/// The commands of a table, with 0 in the bytes that a command lacks: how many, or the table's number. Fewer entries than commands
/// give 18.
pub fn commands(table: &[u8], entries: &mut [Entry]) -> Result<usize, u8> {
    let mut found = 0;
    match unsafe { calls::stepmachine_commands(table.as_ptr(), table.len(), entries.as_mut_ptr(), entries.len(), &mut found) } {
        0 => Ok(found),
        number => Err(number),
    }
}
