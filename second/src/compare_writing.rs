//! Compares another writer with this program, call by call: the answer, every byte of the buffer that is
//! lent, and the bytes on either side of it.

use crate::compare::{flat_tasks, Compared};
use crate::plan::Refusal;
use crate::textbook;
use crate::writing::{write_at, write_changed};
use crate::writing_cases::{cases_from, changes_from, letters, Case, Change};

/// The end place; or the number, the place and the passes of a refusal.
pub type Said = Result<usize, (u32, u32, u32)>;

/// The other writer.
#[derive(Clone, Copy)]
pub struct Writer {
    /// Cores, policy, tasks (flag, T, C, D each), buffer, start.
    pub tasks: fn(u32, u32, &[u32], &mut [u8], usize) -> Said,
    /// Plan text, buffer, start.
    pub changed: fn(&[u8], &mut [u8], usize) -> Said,
}

/// This program behind the same two functions, so that the comparison itself can be tried.
pub const OWN: Writer = Writer { tasks: own_tasks, changed: own_changed };

fn own_tasks(cores: u32, policy: u32, tasks: &[u32], buffer: &mut [u8], start: usize) -> Said {
    write_at(cores, policy, &crate::compare::unflat(tasks), buffer, start).map_err(told)
}

fn own_changed(text: &[u8], buffer: &mut [u8], start: usize) -> Said {
    write_changed(text, buffer, start, textbook::bound_of).map_err(told)
}

fn told(refusal: Refusal) -> (u32, u32, u32) {
    (refusal.number, refusal.place, refusal.passes)
}

/// So many bytes stand before and after the part that is lent.
const AROUND: usize = 40;

/// Both writers on a buffer of so many bytes, each with the same bytes in and around it.
pub fn call(
    room: usize,
    own: impl FnOnce(&mut [u8]) -> Said,
    other: impl FnOnce(&mut [u8]) -> Said,
) -> Result<(), String> {
    let mut wanted = letters(room + 2 * AROUND);
    let mut found = wanted.clone();
    let expected = own(&mut wanted[AROUND..AROUND + room]);
    let said = other(&mut found[AROUND..AROUND + room]);
    if said != expected {
        return Err(format!("said {said:?}, expected {expected:?}"));
    }
    match wanted.iter().zip(&found).position(|(one, two)| one != two) {
        None => Ok(()),
        Some(at) => Err(format!("the byte {} from the buffer's first differs", at as i64 - AROUND as i64)),
    }
}

fn task_call(writer: &Writer, case: &Case) -> Result<(), String> {
    let Case { cores, policy, ref tasks, start, room } = *case;
    let numbers = flat_tasks(tasks);
    call(
        room,
        |buffer| own_tasks(cores, policy, &numbers, buffer, start),
        |buffer| (writer.tasks)(cores, policy, &numbers, buffer, start),
    )
    .map_err(|what| format!("cores {cores} policy {policy} start {start} room {room} {tasks:?}: {what}"))
}

fn change_call(writer: &Writer, change: &Change) -> Result<(), String> {
    let Change { ref text, start, room } = *change;
    call(room, |buffer| own_changed(text, buffer, start), |buffer| (writer.changed)(text, buffer, start))
        .map_err(|what| format!("start {start} room {room} text {:?}: {what}", String::from_utf8_lossy(text)))
}

/// So many random tables as lists, twice as many with a fault, and so many plans as changed.
pub fn compared(writer: &Writer, seed: u64, tables: u32) -> Compared {
    let mut calls = 0;
    for case in cases_from(seed, tables) {
        task_call(writer, &case)?;
        calls += 1;
    }
    for change in changes_from(seed + 1, tables) {
        change_call(writer, &change)?;
        calls += 1;
    }
    Ok(calls)
}
