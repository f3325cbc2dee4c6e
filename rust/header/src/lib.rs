//! include/eskihrum.h as Rust sees it through src/header.c. For the tests alone: nothing here is for a
//! caller.

use std::ffi::{c_char, c_int, CStr};

pub mod levels;

/// A task and a record as the header's structs are laid out; the tests see to it that they are.
pub type Task = [u32; 4];
pub type Record = [u32; 3];

/// What an answer's fields are, by their names.
#[derive(Clone, Copy, Debug, Default, PartialEq, Eq)]
#[repr(C)]
pub struct Told {
    pub records: u32,
    pub passes: u32,
    pub forced: u32,
    pub yes: u32,
    pub place: u32,
    pub number: u32,
    pub word: u32,
}

extern "C" {
    fn header_test_plan(text: *const u8, bytes: usize, records: *mut Record, room: usize, told: *mut Told);
    fn header_force_plan(text: *const u8, bytes: usize, records: *mut Record, room: usize, told: *mut Told);
    fn header_test_tasks(
        cores: u32,
        policy: u32,
        tasks: *const Task,
        n: usize,
        records: *mut Record,
        room: usize,
        told: *mut Told,
    );
    fn header_force_tasks(
        cores: u32,
        policy: u32,
        tasks: *const Task,
        n: usize,
        records: *mut Record,
        room: usize,
        told: *mut Told,
    );
    fn header_plan_2(
        force: c_int,
        text: *const u8,
        bytes: usize,
        records: *mut Record,
        room: usize,
        told: *mut Told,
    ) -> u32;
    fn header_tasks_2(
        force: c_int,
        cores: u32,
        policy: u32,
        tasks: *const Task,
        n: usize,
        records: *mut Record,
        room: usize,
        told: *mut Told,
    ) -> u32;
    fn header_fewest_plan(
        text: *const u8,
        bytes: usize,
        records: *mut Record,
        room: usize,
        told: *mut Told,
    ) -> u32;
    fn header_fewest_tasks(
        cores: u32,
        policy: u32,
        tasks: *const Task,
        n: usize,
        records: *mut Record,
        room: usize,
        told: *mut Told,
    ) -> u32;
    fn header_write_tasks(
        cores: u32,
        policy: u32,
        tasks: *const Task,
        n: usize,
        buffer: *mut u8,
        bytes: usize,
        start: usize,
        told: *mut Told,
    ) -> usize;
    fn header_write_changed(
        text: *const u8,
        text_bytes: usize,
        buffer: *mut u8,
        bytes: usize,
        start: usize,
        told: *mut Told,
    ) -> usize;
    fn header_end(low: u32, high: u32) -> usize;
    fn header_plan_bytes() -> usize;
    fn header_plan(
        force: c_int,
        text: *const u8,
        bytes: usize,
        records: *mut u32,
        len: usize,
        told: *mut Told,
    );
    fn header_tasks(
        force: c_int,
        cores: u32,
        policy: u32,
        tasks: *const u32,
        tasks_len: usize,
        records: *mut u32,
        records_len: usize,
        told: *mut Told,
    );
    fn header_reserved(text: *const u8, bytes: usize, records: *mut Record, room: usize) -> u32;
    fn header_text(number: u32) -> *const c_char;
    fn header_advice(number: u32) -> *const c_char;
    fn header_edf() -> u32;
    fn header_fp() -> u32;
    fn header_preemptive() -> u32;
    fn header_non_preemptive() -> u32;
    fn header_most() -> usize;
    fn header_served() -> c_int;
}

/// A list that may be lent as NULL where it is empty, as C callers do.
fn start<T>(list: &[T]) -> *const T {
    if list.is_empty() {
        std::ptr::null()
    } else {
        list.as_ptr()
    }
}

fn start_mut<T>(list: &mut [T]) -> *mut T {
    start(list).cast_mut()
}

/// The test, or forcing, of a plan.
pub fn plan(force: bool, text: &[u8], records: &mut [Record]) -> Told {
    let run = if force { header_force_plan } else { header_test_plan };
    let mut told = Told::default();
    // SAFETY: the lists are lent for the call alone.
    unsafe { run(start(text), text.len(), start_mut(records), records.len(), &mut told) };
    told
}

/// The test, or forcing, of a list of tasks.
pub fn tasks(force: bool, cores: u32, policy: u32, tasks: &[Task], records: &mut [Record]) -> Told {
    counted(force, cores, policy, tasks, tasks.len(), records, records.len())
}

/// The same with counts of the caller's own.
///
/// # Panics Where a count is below the length of its list, or above it with fewer than 32 things in the list:
/// the header looks at no more than 32 of either.
pub fn counted(
    force: bool,
    cores: u32,
    policy: u32,
    tasks: &[Task],
    n: usize,
    records: &mut [Record],
    room: usize,
) -> Told {
    assert!(n == tasks.len() || n > tasks.len() && tasks.len() >= 32);
    assert!(room == records.len() || room > records.len() && records.len() >= 32);
    let run = if force { header_force_tasks } else { header_test_tasks };
    let mut told = Told::default();
    // SAFETY: the lists are lent for the call alone, and hold as many things as the call looks at.
    unsafe { run(cores, policy, start(tasks), n, start_mut(records), room, &mut told) };
    told
}

/// The test, or forcing, of a plan under the second edition: the answer, and its rounds.
pub fn plan_2(force: bool, text: &[u8], records: &mut [Record]) -> (Told, u32) {
    let (room, mut told) = (records.len(), Told::default());
    // SAFETY: the lists are lent for the call alone.
    let rounds =
        unsafe { header_plan_2(force.into(), start(text), text.len(), start_mut(records), room, &mut told) };
    (told, rounds)
}

/// The test, or forcing, of a list of tasks under the second edition: the answer, and its rounds.
pub fn tasks_2(force: bool, head: [u32; 2], tasks: &[Task], records: &mut [Record]) -> (Told, u32) {
    let ([cores, policy], n, room, mut told) = (head, tasks.len(), records.len(), Told::default());
    let (force, list, to) = (force.into(), start(tasks), start_mut(records));
    // SAFETY: the lists are lent for the call alone.
    let rounds = unsafe { header_tasks_2(force, cores, policy, list, n, to, room, &mut told) };
    (told, rounds)
}

/// The fewest cores for a plan: the answer, and their number.
pub fn fewest_plan(text: &[u8], records: &mut [Record]) -> (Told, u32) {
    let (bytes, room) = (text.len(), records.len());
    let mut told = Told::default();
    // SAFETY: the lists are lent for the call alone.
    let cores = unsafe { header_fewest_plan(start(text), bytes, start_mut(records), room, &mut told) };
    (told, cores)
}

/// The fewest cores for a list of tasks: the answer, and their number.
pub fn fewest_tasks(cores: u32, policy: u32, tasks: &[Task], records: &mut [Record]) -> (Told, u32) {
    let (n, room) = (tasks.len(), records.len());
    let mut told = Told::default();
    // SAFETY: the lists are lent for the call alone.
    let cores =
        unsafe { header_fewest_tasks(cores, policy, start(tasks), n, start_mut(records), room, &mut told) };
    (told, cores)
}

/// A list of tasks as a plan, from a place of the buffer on: the answer, and its end place.
pub fn write_tasks(cores: u32, policy: u32, tasks: &[Task], buffer: &mut [u8], from: usize) -> (Told, usize) {
    let (n, bytes) = (tasks.len(), buffer.len());
    let mut told = Told::default();
    // SAFETY: the lists are lent for the call alone.
    let end = unsafe {
        header_write_tasks(cores, policy, start(tasks), n, start_mut(buffer), bytes, from, &mut told)
    };
    (told, end)
}

/// A plan as changed, from a place of the buffer on: the answer, and its end place.
pub fn write_changed(text: &[u8], buffer: &mut [u8], from: usize) -> (Told, usize) {
    let bytes = buffer.len();
    let mut told = Told::default();
    // SAFETY: the lists are lent for the call alone.
    let end =
        unsafe { header_write_changed(start(text), text.len(), start_mut(buffer), bytes, from, &mut told) };
    (told, end)
}

/// An end place of these two halves, and the most bytes of a plan.
pub fn places(low: u32, high: u32) -> (usize, usize) {
    // SAFETY: they take numbers.
    unsafe { (header_end(low, high), header_plan_bytes()) }
}

/// The older call on a plan, taken apart by the macros.
pub fn older_plan(force: bool, text: &[u8], records: &mut [u32]) -> Told {
    let mut told = Told::default();
    // SAFETY: the lists are lent for the call alone.
    unsafe {
        header_plan(force.into(), start(text), text.len(), start_mut(records), records.len(), &mut told)
    };
    told
}

/// The older call on a flat table, taken apart by the macros.
pub fn older_tasks(force: bool, cores: u32, policy: u32, tasks: &[u32], records: &mut [u32]) -> Told {
    let mut told = Told::default();
    // SAFETY: the lists are lent for the call alone.
    unsafe {
        header_tasks(
            force.into(),
            cores,
            policy,
            start(tasks),
            tasks.len(),
            start_mut(records),
            records.len(),
            &mut told,
        )
    };
    told
}

/// What the reserved fields of an answer hold, all of them together.
pub fn reserved(text: &[u8], records: &mut [Record]) -> u32 {
    // SAFETY: the lists are lent for the call alone.
    unsafe { header_reserved(start(text), text.len(), start_mut(records), records.len()) }
}

fn words(told: *const c_char) -> &'static str {
    // SAFETY: the header gives out strings that are part of the program.
    unsafe { CStr::from_ptr(told) }.to_str().expect("the header's words are text")
}

/// What a refusal means.
pub fn text(number: u32) -> &'static str {
    // SAFETY: it takes a number.
    words(unsafe { header_text(number) })
}

/// What to do about a refusal.
pub fn advice(number: u32) -> &'static str {
    // SAFETY: it takes a number.
    words(unsafe { header_advice(number) })
}

/// The header's numbers for EDF, FP, preemptive, non-preemptive and the most tasks; whether the archive
/// serves it.
pub fn numbers() -> ([u32; 4], usize, bool) {
    // SAFETY: they take nothing.
    unsafe {
        let names = [header_edf(), header_fp(), header_preemptive(), header_non_preemptive()];
        (names, header_most(), header_served() != 0)
    }
}
