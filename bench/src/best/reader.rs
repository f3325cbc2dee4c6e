//! Reading a plan into rows: each line is looked at once from end to end, and only then asked what is wrong.

use super::checks::{head_fault, task_fault};
use super::rows::Rows;
use super::{fault, Fault};

/// Bytes of a frame, and of its line: two digits to a byte, and the 0A.
const HEAD: usize = 5;
const HEAD_LINE: usize = 2 * HEAD + 1;
const TASK: usize = 15;
const TASK_LINE: usize = 2 * TASK + 1;

const NO_DIGIT: u8 = 255;

/// The value of each byte as a digit, letters in either case.
static DIGITS: [u8; 256] = digits();

const fn digits() -> [u8; 256] {
    let mut table = [NO_DIGIT; 256];
    let mut value = 0;
    while value < 16 {
        table[b"0123456789ABCDEF"[value as usize] as usize] = value;
        table[b"0123456789abcdef"[value as usize] as usize] = value;
        value += 1;
    }
    table
}

/// 0, or the first fault with its line.
pub fn read(text: &[u8], rows: &mut Rows) -> Fault {
    let mut head = [0; HEAD];
    let wrong = frame(text, 1, &mut head);
    if wrong != 0 {
        return fault(wrong, 1);
    }
    let (cores, policy, n) = (u32::from(head[1]), u32::from(head[2]), usize::from(head[3]));
    let wrong = head_fault(cores, policy, n);
    if wrong != 0 {
        return fault(wrong, 1);
    }
    (rows.cores, rows.policy, rows.n) = (cores, policy, n);
    let mut left = &text[HEAD_LINE..];
    for i in 0..n {
        let wrong = task(left, i, rows);
        if wrong != 0 {
            return fault(wrong, i as u32 + 2);
        }
        left = &left[TASK_LINE..];
    }
    if left.is_empty() {
        0
    } else {
        fault(12, n as u32 + 2)
    }
}

/// The task line that the text starts with, to place i of the rows.
#[inline]
fn task(text: &[u8], i: usize, rows: &mut Rows) -> u32 {
    let mut bytes = [0; TASK];
    let wrong = frame(text, 2, &mut bytes);
    if wrong != 0 {
        return wrong;
    }
    let number = |at: usize| u32::from_be_bytes([bytes[at], bytes[at + 1], bytes[at + 2], bytes[at + 3]]);
    let (flag, period, cost, deadline) = (u32::from(bytes[1]), number(2), number(6), number(10));
    let wrong = task_fault(flag, period, cost, deadline);
    if wrong == 0 {
        rows.put(i, flag, period, cost, deadline);
    }
    wrong
}

/// The frame that the text starts with: which of the refusals 1 to 4 it gets, and 0 for none.
#[inline(always)]
fn frame<const SIZE: usize>(text: &[u8], kind: u8, bytes: &mut [u8; SIZE]) -> u32 {
    if text.len() <= 2 * SIZE {
        return 1;
    }
    let (mut any, mut sum) = (0, 0u8);
    for (byte, pair) in bytes.iter_mut().zip(text[..2 * SIZE].chunks_exact(2)) {
        let (high, low) = (DIGITS[usize::from(pair[0])], DIGITS[usize::from(pair[1])]);
        any |= high | low;
        *byte = high << 4 | low;
        sum = sum.wrapping_add(*byte);
    }
    if any > 15 || text[2 * SIZE] != 0x0A {
        2
    } else if sum != 0 {
        3
    } else if bytes[0] != kind {
        4
    } else {
        0
    }
}
