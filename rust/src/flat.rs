//! The archive's functions on flat numbers, as C calls them: five numbers to a task where the name ends in
//! `levels`, and four, without the level, in the others, which take a task's place for its level; three to a
//! record.
//!
//! All that is unsafe in this package is here: the calls, and the view of tasks and records as the numbers
//! that they are made of. Only a caller that has such numbers already, or that asks for a policy that is not
//! there, needs it.

use crate::{Record, Task};

/// How many numbers an answer has. A shorter list gets the first of them; past them a list keeps its own.
pub const FIELDS: usize = 16;
/// The place of the refusal's number, 0 for none.
pub const NUMBER: usize = 0;
/// The place of the refusal's place.
pub const PLACE: usize = 1;
/// The place of the yes, 1 or 0.
pub const YES: usize = 2;
/// The place of the number of forced tasks.
pub const FORCED: usize = 3;
/// The place of the number of passes.
pub const PASSES: usize = 4;
/// The place of the number of records that were written.
pub const RECORDS: usize = 5;
/// The place of the round count of the last test, under the second edition.
pub const ROUNDS: usize = 6;
/// The place of the fewest cores, where they were asked for.
pub const CORES: usize = 7;
/// The place of the flags in the records as one word: bit 0 for task 1, a 1 for non-preemptive.
pub const WORD: usize = 8;
/// The place of the low 32 bits of the end place in a buffer.
pub const END_LOW: usize = 9;
/// The place of its high 32 bits.
pub const END_HIGH: usize = 10;

/// What this wrapper knows of the archive: calls and numbers of an answer are only ever added.
pub const ABI: u32 = 6;

// checks/border.py compares these declarations with the archive's source.
extern "C" {
    fn eskihrum_abi() -> u32;
    fn eskihrum_flat_test_plan(
        text: *const u8,
        text_len: usize,
        records: *mut u32,
        records_len: usize,
        answer: *mut u32,
        answer_len: usize,
    ) -> u32;
    fn eskihrum_flat_force_plan(
        text: *const u8,
        text_len: usize,
        records: *mut u32,
        records_len: usize,
        answer: *mut u32,
        answer_len: usize,
    ) -> u32;
    fn eskihrum_flat_test_tasks(
        cores: u32,
        policy: u32,
        tasks: *const u32,
        tasks_len: usize,
        records: *mut u32,
        records_len: usize,
        answer: *mut u32,
        answer_len: usize,
    ) -> u32;
    fn eskihrum_flat_force_tasks(
        cores: u32,
        policy: u32,
        tasks: *const u32,
        tasks_len: usize,
        records: *mut u32,
        records_len: usize,
        answer: *mut u32,
        answer_len: usize,
    ) -> u32;
    fn eskihrum_flat_test_plan_2(
        text: *const u8,
        text_len: usize,
        records: *mut u32,
        records_len: usize,
        answer: *mut u32,
        answer_len: usize,
    ) -> u32;
    fn eskihrum_flat_force_plan_2(
        text: *const u8,
        text_len: usize,
        records: *mut u32,
        records_len: usize,
        answer: *mut u32,
        answer_len: usize,
    ) -> u32;
    fn eskihrum_flat_test_tasks_2(
        cores: u32,
        policy: u32,
        tasks: *const u32,
        tasks_len: usize,
        records: *mut u32,
        records_len: usize,
        answer: *mut u32,
        answer_len: usize,
    ) -> u32;
    fn eskihrum_flat_force_tasks_2(
        cores: u32,
        policy: u32,
        tasks: *const u32,
        tasks_len: usize,
        records: *mut u32,
        records_len: usize,
        answer: *mut u32,
        answer_len: usize,
    ) -> u32;
    fn eskihrum_flat_fewest_plan(
        text: *const u8,
        text_len: usize,
        records: *mut u32,
        records_len: usize,
        answer: *mut u32,
        answer_len: usize,
    ) -> u32;
    fn eskihrum_flat_fewest_tasks(
        cores: u32,
        policy: u32,
        tasks: *const u32,
        tasks_len: usize,
        records: *mut u32,
        records_len: usize,
        answer: *mut u32,
        answer_len: usize,
    ) -> u32;
    fn eskihrum_flat_write_tasks(
        cores: u32,
        policy: u32,
        tasks: *const u32,
        tasks_len: usize,
        buffer: *mut u8,
        buffer_len: usize,
        start: usize,
        answer: *mut u32,
        answer_len: usize,
    ) -> u32;
    fn eskihrum_flat_write_changed(
        text: *const u8,
        text_len: usize,
        buffer: *mut u8,
        buffer_len: usize,
        start: usize,
        answer: *mut u32,
        answer_len: usize,
    ) -> u32;
    fn eskihrum_flat_test_levels(
        cores: u32,
        policy: u32,
        tasks: *const u32,
        tasks_len: usize,
        records: *mut u32,
        records_len: usize,
        answer: *mut u32,
        answer_len: usize,
    ) -> u32;
    fn eskihrum_flat_force_levels(
        cores: u32,
        policy: u32,
        tasks: *const u32,
        tasks_len: usize,
        records: *mut u32,
        records_len: usize,
        answer: *mut u32,
        answer_len: usize,
    ) -> u32;
    fn eskihrum_flat_test_levels_2(
        cores: u32,
        policy: u32,
        tasks: *const u32,
        tasks_len: usize,
        records: *mut u32,
        records_len: usize,
        answer: *mut u32,
        answer_len: usize,
    ) -> u32;
    fn eskihrum_flat_force_levels_2(
        cores: u32,
        policy: u32,
        tasks: *const u32,
        tasks_len: usize,
        records: *mut u32,
        records_len: usize,
        answer: *mut u32,
        answer_len: usize,
    ) -> u32;
    fn eskihrum_flat_fewest_levels(
        cores: u32,
        policy: u32,
        tasks: *const u32,
        tasks_len: usize,
        records: *mut u32,
        records_len: usize,
        answer: *mut u32,
        answer_len: usize,
    ) -> u32;
    fn eskihrum_flat_write_levels(
        cores: u32,
        policy: u32,
        tasks: *const u32,
        tasks_len: usize,
        buffer: *mut u8,
        buffer_len: usize,
        start: usize,
        answer: *mut u32,
        answer_len: usize,
    ) -> u32;
    fn eskihrum_plan(
        job: u32,
        text: *const u8,
        text_len: usize,
        records: *mut u32,
        records_len: usize,
    ) -> u64;
    fn eskihrum_tasks(
        job: u32,
        cores: u32,
        policy: u32,
        tasks: *const u32,
        tasks_len: usize,
        records: *mut u32,
        records_len: usize,
    ) -> u64;
}

// SAFETY, of every call below: the archive reads and writes within the lists that it is lent, for the call
// alone, and keeps nothing. A slice is a pointer and a count; two slices of which one is mutable do not
// overlap.

/// What the archive knows; at least [`ABI`].
pub fn abi() -> u32 {
    // SAFETY: it takes nothing.
    unsafe { eskihrum_abi() }
}

/// A call on a plan text, and one on a flat table.
type OnPlan = unsafe extern "C" fn(*const u8, usize, *mut u32, usize, *mut u32, usize) -> u32;
type OnTasks = unsafe extern "C" fn(u32, u32, *const u32, usize, *mut u32, usize, *mut u32, usize) -> u32;

fn on_plan(call: OnPlan, text: &[u8], records: &mut [u32], answer: &mut [u32]) -> u32 {
    let (to, room) = (records.as_mut_ptr(), records.len());
    // SAFETY: as above.
    unsafe { call(text.as_ptr(), text.len(), to, room, answer.as_mut_ptr(), answer.len()) }
}

fn on_tasks(call: OnTasks, head: [u32; 2], tasks: &[u32], records: &mut [u32], answer: &mut [u32]) -> u32 {
    let ([cores, policy], to, room) = (head, records.as_mut_ptr(), records.len());
    // SAFETY: as above.
    unsafe { call(cores, policy, tasks.as_ptr(), tasks.len(), to, room, answer.as_mut_ptr(), answer.len()) }
}

/// A call that writes a flat table.
type OnBuffer =
    unsafe extern "C" fn(u32, u32, *const u32, usize, *mut u8, usize, usize, *mut u32, usize) -> u32;

fn on_buffer(
    call: OnBuffer,
    [cores, policy]: [u32; 2],
    tasks: &[u32],
    buffer: &mut [u8],
    start: usize,
    answer: &mut [u32],
) -> u32 {
    let (list, n, to, room) = (tasks.as_ptr(), tasks.len(), buffer.as_mut_ptr(), buffer.len());
    // SAFETY: as above.
    unsafe { call(cores, policy, list, n, to, room, start, answer.as_mut_ptr(), answer.len()) }
}

/// The test of a plan text; 1 for a yes.
pub fn test_plan(text: &[u8], records: &mut [u32], answer: &mut [u32]) -> u32 {
    on_plan(eskihrum_flat_test_plan, text, records, answer)
}

/// Forcing of a plan text; 1 where it accepts.
pub fn force_plan(text: &[u8], records: &mut [u32], answer: &mut [u32]) -> u32 {
    on_plan(eskihrum_flat_force_plan, text, records, answer)
}

/// The test of a flat table; 1 for a yes.
pub fn test_tasks(cores: u32, policy: u32, tasks: &[u32], records: &mut [u32], answer: &mut [u32]) -> u32 {
    on_tasks(eskihrum_flat_test_tasks, [cores, policy], tasks, records, answer)
}

/// Forcing of a flat table; 1 where it accepts.
pub fn force_tasks(cores: u32, policy: u32, tasks: &[u32], records: &mut [u32], answer: &mut [u32]) -> u32 {
    on_tasks(eskihrum_flat_force_tasks, [cores, policy], tasks, records, answer)
}

/// The test of a plan text under the second edition; 1 for a yes.
pub fn test_plan_2(text: &[u8], records: &mut [u32], answer: &mut [u32]) -> u32 {
    on_plan(eskihrum_flat_test_plan_2, text, records, answer)
}

/// Forcing of a plan text under the second edition; 1 where it accepts.
pub fn force_plan_2(text: &[u8], records: &mut [u32], answer: &mut [u32]) -> u32 {
    on_plan(eskihrum_flat_force_plan_2, text, records, answer)
}

/// The test of a flat table under the second edition; 1 for a yes.
pub fn test_tasks_2(cores: u32, policy: u32, tasks: &[u32], records: &mut [u32], answer: &mut [u32]) -> u32 {
    on_tasks(eskihrum_flat_test_tasks_2, [cores, policy], tasks, records, answer)
}

/// Forcing of a flat table under the second edition; 1 where it accepts.
pub fn force_tasks_2(cores: u32, policy: u32, tasks: &[u32], records: &mut [u32], answer: &mut [u32]) -> u32 {
    on_tasks(eskihrum_flat_force_tasks_2, [cores, policy], tasks, records, answer)
}

/// The fewest cores for a plan text; 1 where there is such a number.
pub fn fewest_plan(text: &[u8], records: &mut [u32], answer: &mut [u32]) -> u32 {
    on_plan(eskihrum_flat_fewest_plan, text, records, answer)
}

/// The fewest cores for a flat table; 1 where there is such a number. `cores` is checked, and not used.
pub fn fewest_tasks(cores: u32, policy: u32, tasks: &[u32], records: &mut [u32], answer: &mut [u32]) -> u32 {
    on_tasks(eskihrum_flat_fewest_tasks, [cores, policy], tasks, records, answer)
}

/// The test of a flat table with levels; 1 for a yes.
pub fn test_levels(cores: u32, policy: u32, tasks: &[u32], records: &mut [u32], answer: &mut [u32]) -> u32 {
    on_tasks(eskihrum_flat_test_levels, [cores, policy], tasks, records, answer)
}

/// Forcing of a flat table with levels; 1 where it accepts.
pub fn force_levels(cores: u32, policy: u32, tasks: &[u32], records: &mut [u32], answer: &mut [u32]) -> u32 {
    on_tasks(eskihrum_flat_force_levels, [cores, policy], tasks, records, answer)
}

/// The test of a flat table with levels under the second edition; 1 for a yes.
pub fn test_levels_2(cores: u32, policy: u32, tasks: &[u32], records: &mut [u32], answer: &mut [u32]) -> u32 {
    on_tasks(eskihrum_flat_test_levels_2, [cores, policy], tasks, records, answer)
}

/// Forcing of a flat table with levels under the second edition; 1 where it accepts.
pub fn force_levels_2(
    cores: u32,
    policy: u32,
    tasks: &[u32],
    records: &mut [u32],
    answer: &mut [u32],
) -> u32 {
    on_tasks(eskihrum_flat_force_levels_2, [cores, policy], tasks, records, answer)
}

/// The fewest cores for a flat table with levels, as [`fewest_tasks`].
pub fn fewest_levels(cores: u32, policy: u32, tasks: &[u32], records: &mut [u32], answer: &mut [u32]) -> u32 {
    on_tasks(eskihrum_flat_fewest_levels, [cores, policy], tasks, records, answer)
}

/// A flat table as a plan, from the place `start` of the buffer on; 1 where it is written.
pub fn write_tasks(
    cores: u32,
    policy: u32,
    tasks: &[u32],
    buffer: &mut [u8],
    start: usize,
    answer: &mut [u32],
) -> u32 {
    let head = [cores, policy];
    on_buffer(eskihrum_flat_write_tasks, head, tasks, buffer, start, answer)
}

/// A flat table with levels as a plan, as [`write_tasks`]; they have to be 1, 2 and so on.
pub fn write_levels(
    cores: u32,
    policy: u32,
    tasks: &[u32],
    buffer: &mut [u8],
    start: usize,
    answer: &mut [u32],
) -> u32 {
    let head = [cores, policy];
    on_buffer(eskihrum_flat_write_levels, head, tasks, buffer, start, answer)
}

/// The plan of a text as changed, from the place `start` of the buffer on; 1 where it is written.
pub fn write_changed(text: &[u8], buffer: &mut [u8], start: usize, answer: &mut [u32]) -> u32 {
    // SAFETY: as above.
    unsafe {
        eskihrum_flat_write_changed(
            text.as_ptr(),
            text.len(),
            buffer.as_mut_ptr(),
            buffer.len(),
            start,
            answer.as_mut_ptr(),
            answer.len(),
        )
    }
}

/// The older call on a plan text: 0 for the test, any other number for forcing. Number, place, forced count
/// and passes are the bytes of the result from the lowest on, and the yes is its bit 32.
pub fn plan(job: u32, text: &[u8], records: &mut [u32]) -> u64 {
    // SAFETY: as above.
    unsafe { eskihrum_plan(job, text.as_ptr(), text.len(), records.as_mut_ptr(), records.len()) }
}

/// The older call on a flat table, as [`plan`].
pub fn tasks(job: u32, cores: u32, policy: u32, tasks: &[u32], records: &mut [u32]) -> u64 {
    // SAFETY: as above.
    unsafe {
        eskihrum_tasks(job, cores, policy, tasks.as_ptr(), tasks.len(), records.as_mut_ptr(), records.len())
    }
}

const _: () = assert!(size_of::<Task>() == 5 * size_of::<u32>() && align_of::<Task>() == align_of::<u32>());
const _: () =
    assert!(size_of::<Record>() == 3 * size_of::<u32>() && align_of::<Record>() == align_of::<u32>());

/// Tasks as the numbers that they are made of: flag, T, C, D, level.
pub fn numbers(tasks: &[Task]) -> &[u32] {
    // SAFETY: a Task is five u32 in order and nothing else, and every u32 is a number that it may hold.
    unsafe { core::slice::from_raw_parts(tasks.as_ptr().cast(), tasks.len() * 5) }
}

/// Records as the numbers that they are made of: flag, forced mark, bound.
pub fn numbers_mut(records: &mut [Record]) -> &mut [u32] {
    // SAFETY: a Record is three u32 in order and nothing else, and every u32 is a number that it may hold.
    unsafe { core::slice::from_raw_parts_mut(records.as_mut_ptr().cast(), records.len() * 3) }
}
