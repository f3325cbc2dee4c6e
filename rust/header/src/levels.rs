//! The header's functions on tasks with levels.

use crate::{start, start_mut, Record, Told};
use std::ffi::c_int;

/// A task as the header's struct is laid out: flag, T, C, D, level.
pub type LevelTask = [u32; 5];

extern "C" {
    fn header_levels(
        force: c_int,
        edition: c_int,
        cores: u32,
        policy: u32,
        tasks: *const LevelTask,
        n: usize,
        records: *mut Record,
        room: usize,
        told: *mut Told,
    ) -> u32;
    fn header_fewest_levels(
        cores: u32,
        policy: u32,
        tasks: *const LevelTask,
        n: usize,
        records: *mut Record,
        room: usize,
        told: *mut Told,
    ) -> u32;
    fn header_write_levels(
        cores: u32,
        policy: u32,
        tasks: *const LevelTask,
        n: usize,
        buffer: *mut u8,
        bytes: usize,
        start: usize,
        told: *mut Told,
    ) -> usize;
    fn header_lowest_level() -> usize;
}

/// The test, or forcing, under the first or second edition: the answer, and its rounds.
pub fn tasks(
    force: bool,
    edition: i32,
    [cores, policy]: [u32; 2],
    tasks: &[LevelTask],
    records: &mut [Record],
) -> (Told, u32) {
    let (n, room, mut told) = (tasks.len(), records.len(), Told::default());
    let (force, list, to) = (force.into(), start(tasks), start_mut(records));
    // SAFETY: the lists are lent for the call alone.
    let rounds = unsafe { header_levels(force, edition, cores, policy, list, n, to, room, &mut told) };
    (told, rounds)
}

/// The fewest cores: the answer, and their number.
pub fn fewest([cores, policy]: [u32; 2], tasks: &[LevelTask], records: &mut [Record]) -> (Told, u32) {
    let (n, room, mut told) = (tasks.len(), records.len(), Told::default());
    let (list, to) = (start(tasks), start_mut(records));
    // SAFETY: the lists are lent for the call alone.
    let found = unsafe { header_fewest_levels(cores, policy, list, n, to, room, &mut told) };
    (told, found)
}

/// A list of tasks as a plan, from a place of the buffer on: the answer, and its end place.
pub fn write(
    [cores, policy]: [u32; 2],
    tasks: &[LevelTask],
    buffer: &mut [u8],
    from: usize,
) -> (Told, usize) {
    let (n, bytes, mut told) = (tasks.len(), buffer.len(), Told::default());
    let (list, to) = (start(tasks), start_mut(buffer));
    // SAFETY: the lists are lent for the call alone.
    let end = unsafe { header_write_levels(cores, policy, list, n, to, bytes, from, &mut told) };
    (told, end)
}

/// The lowest level.
pub fn lowest() -> usize {
    // SAFETY: it takes nothing.
    unsafe { header_lowest_level() }
}
