//! Texts to be read: legal ones, ones with a fault put in on purpose, and ones damaged at random.

use crate::plan::{line, line_as_is, task_bytes, write, Table};
use crate::random::Random;

// ---------------------------------------------------------------- faults on purpose

/// A line before it is written.
#[derive(Clone)]
struct Frame {
    /// The frame without its check byte.
    bytes: Vec<u8>,
    /// What is added to the right check byte.
    sum_off: u8,
    /// A byte of the written line that is replaced, counted from 0.
    damage: Option<(usize, u8)>,
}

impl Frame {
    fn written(&self) -> Vec<u8> {
        let check = self.bytes.iter().fold(0u8, |sum, &byte| sum.wrapping_add(byte)).wrapping_neg();
        let mut whole = self.bytes.clone();
        whole.push(check.wrapping_add(self.sum_off));
        let mut text = line_as_is(&whole);
        if let Some((at, byte)) = self.damage {
            text[at] = byte;
        }
        text
    }

    fn set(&mut self, at: usize, number: u32) {
        self.bytes[at..at + 4].copy_from_slice(&number.to_be_bytes());
    }
}

/// A plan before it is written, so that several faults can be put in one after the other. Lines count from
/// 1, the head being line 1.
#[derive(Clone)]
pub struct Draft {
    frames: Vec<Frame>,
    /// The last byte that is kept, if the text is cut.
    cut: Option<usize>,
    after: Vec<u8>,
}

/// Where the numbers of a task frame start.
const PERIOD: usize = 2;
const COST: usize = 6;
const DEADLINE: usize = 10;

impl Draft {
    pub fn of(table: &Table) -> Draft {
        let n = table.tasks.len() as u8;
        let mut all = vec![vec![0x01, table.cores as u8, table.policy as u8, n]];
        all.extend(table.tasks.iter().map(task_bytes));
        let frame = |bytes| Frame { bytes, sum_off: 0, damage: None };
        Draft { frames: all.into_iter().map(frame).collect(), cut: None, after: Vec::new() }
    }

    /// Puts the fault with this refusal number into a line. The faults of one line do not touch each other,
    /// and all but 3 keep the sum right. For 12 the line does not matter.
    pub fn fault(mut self, number: u32, line: usize) -> Draft {
        let end = self.end_of(line);
        let frame = &mut self.frames[line - 1];
        match number {
            1 => self.cut = Some(end - 1),
            2 => frame.damage = Some((2 * frame.bytes.len(), b'G')),
            3 => frame.sum_off = 1,
            4 => frame.bytes[0] = 0x03,
            5 => frame.bytes[1] = 17,
            6 => frame.bytes[2] = 2,
            7 => frame.bytes[3] = 33,
            8 => frame.bytes[1] = 2,
            9 => frame.set(PERIOD, 1_000_001),
            10 => frame.set(DEADLINE, 1_000_002),
            11 => frame.set(COST, 0),
            _ => self.after = b"0".to_vec(),
        }
        self
    }

    /// How many bytes the text has up to the end of this line.
    fn end_of(&self, line: usize) -> usize {
        self.frames[..line].iter().map(|frame| frame.written().len()).sum()
    }

    /// Leaves out all that comes after this line: the fault must be found before it is missed.
    pub fn ending_with(mut self, line: usize) -> Draft {
        self.frames.truncate(line);
        self
    }

    pub fn text(&self) -> Vec<u8> {
        let mut text: Vec<u8> = self.frames.iter().flat_map(|frame| frame.written()).collect();
        if let Some(cut) = self.cut {
            text.truncate(cut);
        }
        text.extend(&self.after);
        text
    }
}

/// The plan of a table with one byte of one frame (check byte aside) replaced, and the check byte made
/// right again, so that the fault lies behind 3.
pub fn with_byte(table: &Table, frame: usize, at: usize, byte: u8) -> Vec<u8> {
    let mut draft = Draft::of(table);
    draft.frames[frame].bytes[at] = byte;
    draft.text()
}

// ---------------------------------------------------------------- damage at random

/// Numbers that lie on or beside a border of the document.
const BORDERS: &[u32] =
    &[0, 1, 2, 16, 17, 32, 33, 255, 256, 999_999, 1_000_000, 1_000_001, 1 << 31, u32::MAX];

/// Bytes that lie on or beside a border of the digits, and bytes that editors like to put in.
pub const BYTES: &[u8] = b"/:@G`afg09AF \r\n\t\0\xFF";

/// A damaged copy of a plan; about one in ten is left as it was. Some have letters lowered, which is no
/// damage.
pub fn damaged(random: &mut Random, table: &Table) -> Vec<u8> {
    let mut text = if random.once_in(3) { write(&off_border(random, table)) } else { write(table) };
    lower_some(random, &mut text);
    for _ in 0..random.pick(&[0, 1, 1, 1, 2]) {
        damage_once(random, &mut text);
    }
    text
}

/// A table with one number put on or beside a border; its text has right sums.
pub fn off_border(random: &mut Random, table: &Table) -> Table {
    let mut other = table.clone();
    let number = random.pick(BORDERS);
    let at = random.between(0, table.tasks.len() as u64 - 1) as usize;
    let task = &mut other.tasks[at];
    match random.small(0, 9) {
        0 => other.cores = number,
        1 => other.policy = number,
        2 => task.flag = number,
        3 => task.period = number,
        4 => task.cost = number,
        5 => task.deadline = number,
        6 => task.deadline = task.period.wrapping_add(1),
        7 => task.cost = task.deadline.wrapping_add(1),
        8 => task.deadline = task.period,
        _ => task.cost = task.deadline,
    }
    other
}

/// In half of all texts every letter is lowered, each second one, or one here and there.
pub fn lower_some(random: &mut Random, text: &mut [u8]) {
    let once_in = random.pick(&[0, 0, 0, 1, 2, 8]);
    for byte in text.iter_mut().filter(|byte| byte.is_ascii_uppercase()) {
        if once_in > 0 && random.once_in(once_in) {
            byte.make_ascii_lowercase();
        }
    }
}

fn damage_once(random: &mut Random, text: &mut Vec<u8>) {
    if text.is_empty() {
        return;
    }
    let at = random.between(0, text.len() as u64 - 1) as usize;
    match random.small(0, 8) {
        0 | 1 => text[at] = random.pick(BYTES),
        2 => text[at] = random.pick(b"0123456789ABCDEFabcdef"),
        3 => text[at] ^= 0x20,
        4 => drop(text.remove(at)),
        5 => text.insert(at, random.pick(BYTES)),
        6 => text.truncate(at),
        7 => text.extend(line(&[0x02, 1, 0, 0])),
        _ => repeat_line(random, text),
    }
}

/// Doubles or drops one whole line, as a slip of an editor would.
fn repeat_line(random: &mut Random, text: &mut Vec<u8>) {
    let mut lines: Vec<Vec<u8>> =
        text.split_inclusive(|&byte| byte == 0x0A).map(|line| line.to_vec()).collect();
    let at = random.between(0, lines.len() as u64 - 1) as usize;
    if random.once_in(2) {
        lines.insert(at, lines[at].clone());
    } else {
        lines.remove(at);
    }
    *text = lines.concat();
}
