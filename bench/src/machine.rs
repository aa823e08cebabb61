//! The machine's calls over lent bytes, its run by single steps by value, and its reader of tables.

/// A command of a list.
pub type Entry = [u8; 5];

/// The bytes of a state.
pub const LENGTH: usize = 13_776;

extern "C" {
    fn stepmachine_step(table: *const u8, n: usize, state: *mut u8, m: usize, activity: usize) -> u8;
    fn stepmachine_ready(table: *const u8, n: usize, state: *const u8, m: usize, set: *mut u64) -> u8;
    fn stepmachine_run(
        table: *const u8, n: usize, order: *const u8, k: usize, answers: *mut u8, room: usize, state: *mut u8, m: usize,
    ) -> u8;
    fn stepmachine_build(entries: *const Entry, count: usize, table: *mut u8, n: usize, length: *mut usize) -> u8;
    fn stepmachine_commands(table: *const u8, n: usize, entries: *mut Entry, count: usize, found: *mut usize) -> u8;
    fn stepmachine_single(table: *const u8, n: usize, order: *const u8, k: usize, answers: *mut u8, room: usize) -> u8;
    fn stepmachine_read(table: *const u8, n: usize, counts: *mut u64, m: usize) -> u8;
}

/// A step of the state in the buffer.
pub fn step(table: &[u8], state: &mut [u8], activity: usize) -> u8 {
    unsafe { stepmachine_step(table.as_ptr(), table.len(), state.as_mut_ptr(), state.len(), activity) }
}

/// Who can step.
pub fn ready(table: &[u8], state: &[u8], set: &mut u64) -> u8 {
    unsafe { stepmachine_ready(table.as_ptr(), table.len(), state.as_ptr(), state.len(), set) }
}

/// A run from the start state.
pub fn run(table: &[u8], order: &[u8], answers: &mut [u8], state: &mut [u8]) -> u8 {
    unsafe {
        stepmachine_run(
            table.as_ptr(), table.len(), order.as_ptr(), order.len(), answers.as_mut_ptr(), answers.len(), state.as_mut_ptr(),
            state.len(),
        )
    }
}

/// The start and a step by value for each byte of the order, with every check each time.
pub fn single(table: &[u8], order: &[u8], answers: &mut [u8]) -> u8 {
    unsafe {
        stepmachine_single(table.as_ptr(), table.len(), order.as_ptr(), order.len(), answers.as_mut_ptr(), answers.len())
    }
}

/// The number of a table; its work, activities, clocks and accumulators go into the counts.
pub fn read(table: &[u8], counts: &mut [u64]) -> u8 {
    unsafe { stepmachine_read(table.as_ptr(), table.len(), counts.as_mut_ptr(), counts.len()) }
}

/// The table of a list, and its length.
pub fn build(entries: &[Entry], table: &mut [u8]) -> (u8, usize) {
    let mut length = 0;
    let number = unsafe { stepmachine_build(entries.as_ptr(), entries.len(), table.as_mut_ptr(), table.len(), &mut length) };
    (number, length)
}

/// The commands of a table, and how many.
pub fn commands(table: &[u8], entries: &mut [Entry]) -> (u8, usize) {
    let mut found = 0;
    let number = unsafe { stepmachine_commands(table.as_ptr(), table.len(), entries.as_mut_ptr(), entries.len(), &mut found) };
    (number, found)
}
