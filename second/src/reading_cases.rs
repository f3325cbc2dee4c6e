//! The reading cases: texts with the one line that a reading of each must give.

use crate::batch::LONGEST_TEXT;
use crate::hand::{case_a, many, table};
use crate::letter_cases;
use crate::plan::{line, read, task_bytes, write, Refusal, Table, Task, EDF, FP};
use crate::random::Random;
use crate::tables::small_table;
use crate::texts::{damaged, with_byte, Draft, BYTES};

pub const SEED: u64 = 101;

/// A text, and the refusal that it was made for where that is known without reading it (number, place).
pub struct Case {
    pub text: Vec<u8>,
    pub made_for: Option<(u32, u32)>,
}

/// The line expected for a text. The places past the n-th of a returned table, and all of it when refused,
/// hold zeros: their sum is the rest.
pub fn expected(text: &[u8]) -> String {
    line_for(&read(text))
}

pub fn line_for(result: &Result<Table, Refusal>) -> String {
    match result {
        Err(refusal) => format!("refused {} place {} rest 0\n", refusal.number, refusal.place),
        Ok(table) => {
            let Table { cores, policy, tasks } = table;
            let mut text = format!("read cores {cores} policy {policy} tasks {}", tasks.len());
            for Task { flag, period, cost, deadline, .. } in tasks {
                text += &format!(" | {flag} {period} {cost} {deadline}");
            }
            text + " rest 0\n"
        }
    }
}

/// All cases, in order; a text that came before is left out.
pub fn cases() -> Vec<Case> {
    let mut all = Vec::new();
    lengths(&mut all);
    heads(&mut all);
    tasks(&mut all);
    every_place(&mut all);
    rests(&mut all);
    pairs(&mut all);
    bytes(&mut all);
    fields(&mut all);
    lines(&mut all);
    letter_cases::add(&mut all);
    drawn(&mut all);
    let mut seen = std::collections::HashSet::new();
    all.retain(|case| seen.insert(case.text.clone()));
    all
}

pub fn plain(all: &mut Vec<Case>, text: Vec<u8>) {
    all.push(Case { text, made_for: None });
}

pub fn made(all: &mut Vec<Case>, text: Vec<u8>, number: u32, place: u32) {
    all.push(Case { text, made_for: Some((number, place)) });
}

pub fn one_task() -> Table {
    table(EDF, 4, &[(0x00ABCDEF % 1_000_000, 0x1234, 0x1A2B3, 'N')])
}

pub fn three_tasks() -> Table {
    table(FP, 16, &[(1_000_000, 1, 1_000_000, 'P'), (1, 1, 1, 'N'), (254, 250, 253, 'P')])
}

// ---------------------------------------------------------------- whole texts

/// Texts that are empty, cut or too long.
fn lengths(all: &mut Vec<Case>) {
    made(all, Vec::new(), 1, 1);
    let small = write(&case_a());
    for end in 0..small.len() {
        let place = if end < 11 { 1 } else { 2 + (end as u32 - 11) / 31 };
        made(all, small[..end].to_vec(), 1, place);
    }
    let large = write(&many(32));
    plain(all, large.clone());
    for n in 0..=32 {
        let end = 11 + 31 * n;
        for cut in [end - 1, end] {
            plain(all, large[..cut].to_vec());
        }
    }
    made(all, [&large[..], b"\n"].concat(), 12, 34);
    made(all, filled(&large, b'0'), 12, 34);
    made(all, filled(&write(&one_task()), b'\n'), 12, 3);
    made(all, filled(b"", b'0'), 2, 1);
    made(all, filled(b"", 0), 2, 1);
    let mut again = small.repeat(LONGEST_TEXT / small.len() + 1);
    again.truncate(LONGEST_TEXT);
    made(all, again, 12, 4);
}

/// The longest text of the batch: a start, filled up with one byte.
fn filled(start: &[u8], byte: u8) -> Vec<u8> {
    let mut text = start.to_vec();
    text.resize(LONGEST_TEXT, byte);
    text
}

/// Plans with bytes behind them.
fn rests(all: &mut Vec<Case>) {
    for n in [1, 2, 3, 7, 16, 31, 32] {
        let text = write(&many(n));
        let place = n as u32 + 2;
        let task = line(&task_bytes(&many(2).tasks[1]));
        for rest in [&b"\n"[..], b"0", b"\r\n", b" ", b"\0", b"\xFF", b"01010102FB\n", &task, &text] {
            made(all, [&text[..], rest].concat(), 12, place);
        }
    }
}

// ---------------------------------------------------------------- one number on or beside its border

/// Heads with each value on and beside its border, followed by as many tasks as they promise.
fn heads(all: &mut Vec<Case>) {
    let task = line(&task_bytes(&case_a().tasks[0]));
    for cores in [0, 1, 2, 15, 16, 17, 18, 128, 255] {
        for policy in [0, 1, 2, 3, 128, 255] {
            plain(all, [line(&[1, cores, policy, 1]), task.clone()].concat());
        }
    }
    for n in [0u8, 1, 2, 31, 32, 33, 34, 128, 255] {
        plain(all, [line(&[1, 1, 0, n]), task.repeat(n as usize)].concat());
        plain(all, [line(&[1, 0, 2, n]), task.repeat(1)].concat());
        plain(all, [line(&[1, 1, 2, n]), task.repeat(1)].concat());
    }
    for kind in [0, 2, 3, 17, 129, 255] {
        made(all, [line(&[kind, 1, 0, 1]), task.clone()].concat(), 4, 1);
        made(all, [line(&[1, 1, 0, 1]), line(&[kind.max(3); 14])].concat(), 4, 2);
    }
}

/// Tasks with each number on and beside its border, as the only line and as the second of two.
fn tasks(all: &mut Vec<Case>) {
    let mut list = Vec::new();
    for flag in [0, 1, 2, 255] {
        list.push(Task::of_four(flag, 10, 3, 7));
    }
    for period in [0, 1, 2, 255, 256, 65_536, 999_999, 1_000_000, 1_000_001, 1 << 24, 1 << 31, u32::MAX] {
        for deadline in [0, 1, period, period.saturating_add(1), period.saturating_sub(1)] {
            for cost in [0, 1, deadline, deadline.saturating_add(1), deadline.saturating_sub(1), u32::MAX] {
                list.push(Task::of_four(1, period, cost, deadline));
            }
        }
    }
    list.dedup();
    for (count, task) in list.into_iter().enumerate() {
        plain(all, write(&Table::in_places(1, 0, &[task])));
        if count % 4 == 0 {
            plain(all, write(&Table::in_places(2, 1, &[case_a().tasks[0], task])));
        }
    }
}

// ---------------------------------------------------------------- each refusal at each place

const HEAD_FAULTS: [u32; 7] = [1, 2, 3, 4, 5, 6, 7];
const TASK_FAULTS: [u32; 8] = [1, 2, 3, 4, 8, 9, 10, 11];

fn faults(line: usize) -> &'static [u32] {
    if line == 1 {
        &HEAD_FAULTS
    } else {
        &TASK_FAULTS
    }
}

/// Every refusal in every line of the largest plan. Where the text ends with the faulty line, a reader that
/// counts bytes beforehand gives itself away.
fn every_place(all: &mut Vec<Case>) {
    let draft = Draft::of(&many(32));
    for place in 1..=33 {
        for (count, &number) in faults(place).iter().enumerate() {
            let whole = draft.clone().fault(number, place);
            let ends = (place + count) % 3 != 0 && number != 1;
            let text = if ends { whole.ending_with(place).text() } else { whole.text() };
            made(all, text, number, place as u32);
        }
    }
}

// ---------------------------------------------------------------- two faults

/// Each ordered pair of faults that can stand in one plan: the earlier line wins, and in one line the
/// earlier check.
fn pairs(all: &mut Vec<Case>) {
    for (x, y) in [(1, 1), (2, 2), (4, 4), (1, 2), (1, 4), (2, 3), (2, 4), (3, 4)] {
        for &a in faults(x) {
            for &b in faults(y) {
                pair(all, (a, x), (b, y));
            }
        }
    }
    for x in 1..=4 {
        for &a in faults(x).iter().filter(|&&a| a != 1) {
            let draft = Draft::of(&three_tasks()).fault(a, x).fault(12, 4);
            made(all, draft.text(), a, x as u32);
        }
    }
}

/// The two faults in lines x and y, x being no later. A cut leaves no later line to be faulty.
fn pair(all: &mut Vec<Case>, (a, x): (u32, usize), (b, y): (u32, usize)) {
    if (x == y && a >= b) || (x < y && a == 1) {
        return;
    }
    let draft = Draft::of(&three_tasks()).fault(a, x).fault(b, y);
    made(all, draft.text(), a, x as u32);
}

// ---------------------------------------------------------------- one byte replaced

/// Every byte of three plans replaced by bytes that are no digit or another one.
fn bytes(all: &mut Vec<Case>) {
    let few = &b"/:@Ga\r0"[..];
    for (table, by) in [(one_task(), BYTES), (case_a(), BYTES), (three_tasks(), few)] {
        let text = write(&table);
        for at in 0..text.len() {
            for &byte in by {
                let mut other = text.clone();
                other[at] = byte;
                plain(all, other);
            }
        }
    }
}

/// Every byte of every frame replaced, with the check byte made right again.
fn fields(all: &mut Vec<Case>) {
    for table in [case_a(), three_tasks()] {
        for frame in 0..=table.tasks.len() {
            for at in 0..if frame == 0 { 4 } else { 14 } {
                for byte in [0, 1, 2, 3, 16, 127, 128, 255] {
                    plain(all, with_byte(&table, frame, at, byte));
                }
            }
        }
    }
}

// ---------------------------------------------------------------- line ends, cases of letters, lost lines

fn lines(all: &mut Vec<Case>) {
    for table in [case_a(), one_task(), three_tasks(), many(5)] {
        let text = write(&table);
        plain(all, text.to_ascii_lowercase());
        plain(all, with_carriage_returns(&text));
        for before in [&b"\n"[..], b" ", b"\xEF\xBB\xBF", b"\0", b"0"] {
            plain(all, [before, &text].concat());
        }
        let lines: Vec<&[u8]> = text.split_inclusive(|&byte| byte == b'\n').collect();
        for at in 0..lines.len() {
            each_line(all, &lines, at);
        }
    }
}

fn with_carriage_returns(text: &[u8]) -> Vec<u8> {
    text.iter().flat_map(|&byte| if byte == b'\n' { vec![b'\r', b'\n'] } else { vec![byte] }).collect()
}

/// One line with another end, in lower case, left out, doubled, or put in the place of the next.
fn each_line(all: &mut Vec<Case>, lines: &[&[u8]], at: usize) {
    let with = |new: Vec<u8>| {
        let mut other: Vec<Vec<u8>> = lines.iter().map(|line| line.to_vec()).collect();
        other[at] = new;
        other.concat()
    };
    let bare = &lines[at][..lines[at].len() - 1];
    plain(all, with([bare, b"\r\n"].concat()));
    plain(all, with([bare, b"\r"].concat()));
    plain(all, with([bare, b" \n"].concat()));
    plain(all, with([bare, b"\n\n"].concat()));
    plain(all, with(bare.to_vec()));
    plain(all, with(lines[at].to_ascii_lowercase()));
    plain(all, with(Vec::new()));
    plain(all, with([lines[at], lines[at]].concat()));
    plain(all, with(lines[0].to_vec()));
    plain(all, with(lines[lines.len() - 1].to_vec()));
}

// ---------------------------------------------------------------- damage at random

fn drawn(all: &mut Vec<Case>) {
    let mut random = Random::new(SEED);
    for _ in 0..500 {
        let table = small_table(&mut random, 6, 16, 300);
        plain(all, damaged(&mut random, &table));
    }
}
