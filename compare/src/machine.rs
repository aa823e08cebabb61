//! The machine's calls over lent bytes, from the archive that `rt lib` writes in crates/host.

use reference::bytes::LENGTH;

/// The bytes of a sheet.
const SHEET: usize = 1_024;
/// Stands in what is lent before a call, to see what the call leaves and what it writes.
const MARK: u8 = 0xA5;

/// A command of a list.
pub type Entry = [u8; 5];

extern "C" {
    fn stepmachine_start(table: *const u8, n: usize, state: *mut u8, m: usize) -> u8;
    fn stepmachine_step(
        table: *const u8,
        n: usize,
        state: *mut u8,
        m: usize,
        activity: usize,
    ) -> u8;
    fn stepmachine_ready(
        table: *const u8,
        n: usize,
        state: *const u8,
        m: usize,
        set: *mut u64,
    ) -> u8;
    fn stepmachine_awaited(
        table: *const u8,
        n: usize,
        state: *const u8,
        m: usize,
        activity: usize,
        count: *mut u8,
    ) -> u8;
    fn stepmachine_registrations(
        table: *const u8,
        n: usize,
        state: *const u8,
        m: usize,
        sheet: *mut u8,
        k: usize,
    ) -> u8;
    fn stepmachine_run(
        table: *const u8,
        n: usize,
        order: *const u8,
        k: usize,
        answers: *mut u8,
        room: usize,
        state: *mut u8,
        m: usize,
    ) -> u8;
    fn stepmachine_build(
        entries: *const Entry,
        count: usize,
        table: *mut u8,
        n: usize,
        length: *mut usize,
    ) -> u8;
    fn stepmachine_commands(
        table: *const u8,
        n: usize,
        entries: *mut Entry,
        count: usize,
        found: *mut usize,
    ) -> u8;
}

/// The start: its number and the state.
pub fn start(table: &[u8]) -> (u8, Vec<u8>) {
    let mut state = vec![MARK; LENGTH];
    let number =
        unsafe { stepmachine_start(table.as_ptr(), table.len(), state.as_mut_ptr(), LENGTH) };
    (number, state)
}

/// A step of the state: its answer.
pub fn step(table: &[u8], state: &mut [u8], activity: usize) -> u8 {
    let (bytes, length) = (state.as_mut_ptr(), state.len());
    unsafe { stepmachine_step(table.as_ptr(), table.len(), bytes, length, activity) }
}

/// The number and the ready set.
pub fn ready(table: &[u8], state: &[u8]) -> (u8, u64) {
    let mut set = u64::from_le_bytes([MARK; 8]);
    let (bytes, length) = (state.as_ptr(), state.len());
    let number = unsafe { stepmachine_ready(table.as_ptr(), table.len(), bytes, length, &mut set) };
    (number, set)
}

/// The number and how many the activity waits for. What is lent may be written here, for the caller to see that it was not; the bytes
/// beside the count stay.
pub fn awaited(table: &mut [u8], state: &mut [u8], activity: usize) -> (u8, u8) {
    let mut counts = [MARK; 3];
    let (job, n) = (table.as_mut_ptr(), table.len());
    let (bytes, m) = (state.as_mut_ptr(), state.len());
    let to = counts.as_mut_ptr();
    let number = unsafe { stepmachine_awaited(job, n, bytes, m, activity, to.add(1)) };
    assert_eq!([counts[0], counts[2]], [MARK; 2], "a byte beside the count");
    (number, counts[1])
}

/// The number and the sheet.
pub fn registrations(table: &[u8], state: &[u8]) -> (u8, [u8; SHEET]) {
    let mut sheet = [MARK; SHEET];
    let (bytes, length) = (state.as_ptr(), state.len());
    let to = sheet.as_mut_ptr();
    let number =
        unsafe { stepmachine_registrations(table.as_ptr(), table.len(), bytes, length, to, SHEET) };
    (number, sheet)
}

/// A run in one call: its number, each step's answer and the state after the last.
pub fn run(table: &[u8], order: &[u8]) -> (u8, Vec<u8>, Vec<u8>) {
    let mut answers = vec![MARK; order.len()];
    let mut state = vec![MARK; LENGTH];
    let number = unsafe {
        stepmachine_run(
            table.as_ptr(),
            table.len(),
            order.as_ptr(),
            order.len(),
            answers.as_mut_ptr(),
            answers.len(),
            state.as_mut_ptr(),
            LENGTH,
        )
    };
    (number, answers, state)
}

/// The number and the length of the table that a list makes, which is 0 where the call leaves what was lent.
pub fn build(entries: &[Entry], table: &mut [u8]) -> (u8, usize) {
    let (from, count) = (entries.as_ptr(), entries.len());
    told(|length| unsafe {
        stepmachine_build(from, count, table.as_mut_ptr(), table.len(), length)
    })
}

/// The number and how many commands a table has, 0 where the call leaves what was lent.
pub fn commands(table: &[u8], entries: &mut [Entry]) -> (u8, usize) {
    let (to, count) = (entries.as_mut_ptr(), entries.len());
    told(|found| unsafe { stepmachine_commands(table.as_ptr(), table.len(), to, count, found) })
}

/// The number of a call and what it tells besides.
fn told(call: impl FnOnce(&mut usize) -> u8) -> (u8, usize) {
    let mark = usize::from_le_bytes([MARK; 8]);
    let mut told = mark;
    let number = call(&mut told);
    if number != 0 {
        assert_eq!(told, mark, "a refused call wrote a length");
        told = 0;
    }
    (number, told)
}

/// Whether nothing was written into these bytes.
pub fn is_untouched(bytes: &[u8]) -> bool {
    bytes.iter().all(|&byte| byte == MARK)
}
