//! Writing a plan into a buffer from a starting place, and writing the plan as changed by forcing. The lines
//! are worked out here once more from document 01, apart from `plan::write`, so that the two can be compared.

use crate::forcing::{force, BoundOf};
use crate::plan::{check_list, read, refuse, Refusal, Task};

/// Upper-case digits 0-9, A-F.
const DIGITS: &[u8; 16] = b"0123456789ABCDEF";

/// A line is ended by one byte 0A.
const LINE_END: u8 = 0x0A;

/// Bytes of a line: 10 digits for the head, 30 for a task, and the 0A.
const HEAD_LINE: usize = 10 + 1;
const TASK_LINE: usize = 30 + 1;

/// Writes the plan of a legal table into the buffer from the start place; the answer is the end place, the
/// first after the last 0A. Bytes before the start and after the end stay. Refusals: 5 to 11 and 17 as for a
/// list, then 16, then 18; nothing is written then.
pub fn write_at(
    cores: u32,
    policy: u32,
    tasks: &[Task],
    buffer: &mut [u8],
    start: usize,
) -> Result<usize, Refusal> {
    let n = tasks.len();
    // There is no list of records here, so that 13 is never given: as many records are left as are needed.
    check_list(cores, policy, tasks, n)?;
    check_buffer(n, buffer.len(), start)?;
    check_levels(tasks)?;
    let mut rest = &mut buffer[start..];
    rest = write_frame(rest, &head_bytes(cores, policy, n));
    for task in tasks {
        rest = write_frame(rest, &task_bytes(task));
    }
    let after = rest.len();
    Ok(buffer.len() - after)
}

/// Forces a plan and writes the table as it was sent, with the flags at the end of forcing. Refusals: as
/// forcing refuses the plan, then 16; nothing is written then.
pub fn write_changed(
    text: &[u8],
    buffer: &mut [u8],
    start: usize,
    bound_of: BoundOf,
) -> Result<usize, Refusal> {
    let table = read(text)?;
    let answer = force(&table, bound_of)?;
    let mut changed = table.tasks.clone();
    for (task, record) in changed.iter_mut().zip(&answer.records) {
        task.flag = record.flag;
    }
    write_at(table.cores, table.policy, &changed, buffer, start)
}

/// Refusal 16, place 0: the start lies past the buffer's end, or there is too little room from it.
fn check_buffer(n: usize, size: usize, start: usize) -> Result<(), Refusal> {
    if start > size {
        return refuse(16, 0);
    }
    let room = size - start;
    if room < HEAD_LINE + n * TASK_LINE {
        return refuse(16, 0);
    }
    Ok(())
}

/// Refusal 18, place 0, after all others: the old lines have no levels, so that these have to be 1, 2, .. n
/// in table order.
fn check_levels(tasks: &[Task]) -> Result<(), Refusal> {
    for (due, task) in (1..).zip(tasks) {
        if task.level != due {
            return refuse(18, 0);
        }
    }
    Ok(())
}

// ---------------------------------------------------------------- frames

/// A head frame before its check: 01, cores, policy, n.
fn head_bytes(cores: u32, policy: u32, n: usize) -> Vec<u8> {
    vec![0x01, cores as u8, policy as u8, n as u8]
}

/// A task frame before its check: 02, flag, T, C, D.
fn task_bytes(task: &Task) -> Vec<u8> {
    let mut bytes = vec![0x02, task.flag as u8];
    for number in [task.period, task.cost, task.deadline] {
        bytes.extend(four_bytes(number));
    }
    bytes
}

/// 4 bytes, highest first.
fn four_bytes(number: u32) -> [u8; 4] {
    [0x100_0000, 0x1_0000, 0x100, 1].map(|unit| (number / unit % 256) as u8)
}

/// The byte with which the bytes of the frame sum to 0 modulo 256.
fn check_byte(bytes: &[u8]) -> u8 {
    let sum: u32 = bytes.iter().map(|&byte| u32::from(byte)).sum();
    ((256 - sum % 256) % 256) as u8
}

// ---------------------------------------------------------------- lines

/// Writes one frame with its check as a line at the front of this part of the buffer. What is given back is
/// the part that starts after the line.
fn write_frame<'a>(part: &'a mut [u8], bytes: &[u8]) -> &'a mut [u8] {
    let mut rest = part;
    for &byte in bytes {
        rest = write_byte(rest, byte);
    }
    rest = write_byte(rest, check_byte(bytes));
    put(rest, LINE_END)
}

/// Two digits to a byte.
fn write_byte(part: &mut [u8], byte: u8) -> &mut [u8] {
    let rest = put(part, DIGITS[usize::from(byte / 16)]);
    put(rest, DIGITS[usize::from(byte % 16)])
}

/// One character at the front; the part after it is given back.
fn put(part: &mut [u8], character: u8) -> &mut [u8] {
    let (front, rest) = part.split_at_mut(1);
    front[0] = character;
    rest
}
