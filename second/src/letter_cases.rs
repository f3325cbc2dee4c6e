//! Reading cases for letters in either case (document 02, wish 6). The digits a to f are read beside A to F;
//! every other byte stays what it was, and no refusal depends on the case of a letter.

use crate::hand::{case_a, many, table};
use crate::plan::{line, task_bytes, write, Table, EDF};
use crate::reading_cases::{made, one_task, plain, three_tasks, Case};
use crate::texts::with_byte;

// ---------------------------------------------------------------- texts with letters lowered

/// How the letters of a text are lowered.
#[derive(Clone, Copy, Debug, PartialEq, Eq)]
pub enum Lowered {
    All,
    /// The first, the third and so on.
    Odd,
    /// The second, the fourth and so on.
    Even,
}

pub const WAYS: [Lowered; 3] = [Lowered::All, Lowered::Odd, Lowered::Even];

/// The text with its letters lowered in this way.
pub fn lowered(text: &[u8], way: Lowered) -> Vec<u8> {
    let mut other = text.to_vec();
    for (count, at) in letters(text).into_iter().enumerate() {
        let wanted = match way {
            Lowered::All => true,
            Lowered::Odd => count % 2 == 0,
            Lowered::Even => count % 2 == 1,
        };
        if wanted {
            other[at].make_ascii_lowercase();
        }
    }
    other
}

/// The text with the letters lowered that stand from one place up to another.
pub fn lowered_part(text: &[u8], from: usize, to: usize) -> Vec<u8> {
    [&text[..from], &text[from..to].to_ascii_lowercase(), &text[to..]].concat()
}

/// Where the letters of a text stand.
pub fn letters(text: &[u8]) -> Vec<usize> {
    (0..text.len()).filter(|&at| text[at].is_ascii_alphabetic()).collect()
}

// ---------------------------------------------------------------- plans with many letters

/// A task with a letter in each byte that may have one; in T, C and D every letter stands.
const LETTERS: (u32, u32, u32, char) = (0x0E_DCBA, 0x0A_BCDE, 0x0C_DEFA, 'P');

/// One task on 13 cores.
pub fn one_of_letters() -> Table {
    table(EDF, 0x0D, &[LETTERS])
}

/// 11 tasks on 12 cores: letters in every number of the head, too.
pub fn eleven_of_letters() -> Table {
    let (t, c, d, flag) = LETTERS;
    let tasks: Vec<_> = (0..11).map(|i| (t + 0x11 * i, c + i, d + 0x10 * i, flag)).collect();
    table(EDF, 0x0C, &tasks)
}

/// All cases of this file. Those of the list so far that were made for a refusal come again with their
/// letters lowered: it stays the same.
pub fn add(all: &mut Vec<Case>) {
    again_lowered(all);
    singles(all);
    parts(all);
    both_in_one_byte(all);
    outside(all);
    beside(all);
    every_byte(all);
    ends(all);
}

// ---------------------------------------------------------------- plans that are read

/// One letter lowered, each in turn; and all but one.
fn singles(all: &mut Vec<Case>) {
    for table in [case_a(), one_task(), three_tasks(), one_of_letters(), eleven_of_letters()] {
        let text = write(&table);
        let low = lowered(&text, Lowered::All);
        for at in letters(&text) {
            plain(all, lowered_part(&text, at, at + 1));
            if text.len() < 200 {
                let mut other = low.clone();
                other[at] = text[at];
                plain(all, other);
            }
        }
    }
}

/// The whole plan, each second letter, each line alone, and all lines up to one.
fn parts(all: &mut Vec<Case>) {
    for table in [case_a(), one_task(), three_tasks(), eleven_of_letters(), many(32)] {
        let text = write(&table);
        for way in WAYS {
            plain(all, lowered(&text, way));
        }
        for line in 0..table.tasks.len() {
            let (from, to) = (11 + 31 * line, 11 + 31 * (line + 1));
            plain(all, lowered_part(&text, 0, from));
            plain(all, lowered_part(&text, from, to));
        }
    }
}

/// All pairs of letters in one byte, in four ways, with the check byte in upper and in lower case.
fn both_in_one_byte(all: &mut Vec<Case>) {
    const AT: usize = 11 + 2 * 5;
    for byte in (0xA0..=0xFF).filter(|byte| byte % 16 >= 10) {
        let text = write(&table(EDF, 2, &[(0x01_0000 + byte, 7, 9, 'N')]));
        for (from, to) in [(AT, AT), (AT, AT + 1), (AT + 1, AT + 2), (AT, AT + 2)] {
            let part = lowered_part(&text, from, to);
            plain(all, lowered_part(&part, 11 + 28, 11 + 30));
            plain(all, part);
        }
    }
}

// ---------------------------------------------------------------- plans that are refused

/// A text that was made for a refusal, with its letters lowered: the same refusal.
fn again_lowered(all: &mut Vec<Case>) {
    let mut again = Vec::new();
    for (count, case) in all.iter().enumerate() {
        if let Some((number, place)) = case.made_for {
            if case.text.len() <= 400 {
                made(&mut again, lowered(&case.text, Lowered::All), number, place);
                made(&mut again, lowered(&case.text, WAYS[1 + count % 2]), number, place);
            }
        }
    }
    all.extend(again);
}

/// Numbers of letters outside their ranges, with right sums, in either case; and wrong sums and kinds.
fn outside(all: &mut Vec<Case>) {
    let table = one_of_letters();
    let field = |frame: usize, at: usize, byte: u8| with_byte(&table, frame, at, byte);
    for byte in [0xAA, 0xAF, 0xBE, 0xFA, 0xFF, 0x0A, 0xF0] {
        let mut texts = vec![
            (field(0, 0, byte), 4, 1),
            (field(0, 2, byte), 6, 1),
            (field(1, 0, byte), 4, 2),
            (field(1, 1, byte), 8, 2),
            (field(1, 2, byte), 9, 2),
            (field(1, 10, byte), 10, 2),
            (field(1, 6, byte), 11, 2),
        ];
        if byte != 0x0A {
            texts.push((field(0, 1, byte), 5, 1));
            texts.push((field(0, 3, byte), 7, 1));
        }
        for (text, number, place) in texts {
            made(all, text.clone(), number, place);
            for way in WAYS {
                made(all, lowered(&text, way), number, place);
            }
        }
    }
    sums(all, &table);
}

/// Each digit that is a letter made another letter, in either case: the sum is wrong.
fn sums(all: &mut Vec<Case>, table: &Table) {
    let text = write(table);
    for at in letters(&text) {
        let place = if at < 11 { 1 } else { 2 };
        for &byte in b"AFaf".iter().filter(|byte| byte.to_ascii_uppercase() != text[at]) {
            let mut other = text.clone();
            other[at] = byte;
            made(all, lowered(&other, Lowered::All), 3, place);
            made(all, other, 3, place);
        }
    }
}

/// The bytes next to the six letters, in either case.
const BESIDE: &[u8] = b"@G`g";

/// One of them for each digit of a plan in lower case, and for each digit of one in mixed case.
fn beside(all: &mut Vec<Case>) {
    for (table, way) in [(one_of_letters(), Lowered::All), (case_a(), Lowered::Odd)] {
        let text = lowered(&write(&table), way);
        for at in (0..text.len()).filter(|&at| text[at] != b'\n') {
            for &byte in BESIDE {
                let mut other = text.clone();
                other[at] = byte;
                made(all, other, 2, if at < 11 { 1 } else { 2 + (at as u32 - 11) / 31 });
            }
        }
    }
}

/// Bytes that differ from a digit on a border in one bit, or by one.
fn kin() -> Vec<u8> {
    let mut bytes = Vec::new();
    for &digit in b"09AFaf" {
        bytes.extend((0..8).map(|bit| digit ^ (1 << bit)));
        bytes.extend([digit - 1, digit + 1]);
    }
    bytes.sort();
    bytes.dedup();
    bytes
}

/// The first digit of each field: kind, cores, policy, n, check; kind, flag, T, C, D, check.
const FIELDS: [usize; 11] = [0, 2, 4, 6, 8, 11, 13, 15, 23, 31, 39];

/// Any byte for a digit: all of them at four places, the kin of the digits at both ends of each field.
fn every_byte(all: &mut Vec<Case>) {
    let text = write(&one_of_letters());
    let with = |at: usize, byte: u8| {
        let mut other = text.clone();
        other[at] = byte;
        other
    };
    for at in [3, 9, 22, 39] {
        for byte in 0..=255 {
            plain(all, with(at, byte));
        }
    }
    for (field, &first) in FIELDS.iter().enumerate() {
        let wide = (7..10).contains(&field);
        for at in [first, first + if wide { 7 } else { 1 }] {
            for byte in kin() {
                plain(all, with(at, byte));
            }
        }
    }
}

/// Bytes that look like a line end with a bit changed, and letters behind the last line.
fn ends(all: &mut Vec<Case>) {
    for table in [case_a(), one_of_letters()] {
        let text = write(&table);
        for at in (0..text.len()).filter(|&at| text[at] == b'\n') {
            for byte in (0..8).map(|bit| b'\n' ^ (1 << bit)).chain(*b"aAfF") {
                let mut other = text.clone();
                other[at] = byte;
                made(all, other, 2, if at < 11 { 1 } else { 2 + (at as u32 - 11) / 31 });
            }
        }
        let last = table.tasks.len() as u32 + 2;
        let head = line(&[0x01, 0x0A, 0, 0x0B]);
        let task = line(&task_bytes(&table.tasks[0]));
        for rest in [b"a".to_vec(), b"A".to_vec(), b"g".to_vec(), head, task, text.clone()] {
            for way in WAYS {
                made(all, [lowered(&text, way), lowered(&rest, way)].concat(), 12, last);
            }
        }
    }
}
