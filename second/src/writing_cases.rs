//! The writing cases: a table, or a plan to be changed, with a buffer and a start place; and what is
//! expected, the answer's line and every byte of the buffer then.
//!
//! The texts are made of words, four bytes each, the highest first.
//!
//! ```text
//! writing      cores, policy, n, the start in two words, k, then flag T C D of each of k tasks, the places
//!              being the levels; what follows is the buffer. n may be above k only where n is above 32.
//! as changed   the start in two words, the length of the buffer, then the buffer and the plan
//! ```
//!
//! A buffer holds small letters, so that no byte of it is one that a plan has, and each place its own.

use crate::hand::{lettered, many};
use crate::listing::refusal_line;
use crate::plan::{in_places, write, Refusal, Table, Task, MOST_TASKS};
use crate::random::Random;
use crate::tables::small_table;
use crate::textbook;
use crate::texts::lower_some;
use crate::writing::{write_at, write_changed};

pub const SEED: u64 = 303;

/// A list that is to be written from a start place into a buffer of so many bytes.
pub struct Case {
    pub cores: u32,
    pub policy: u32,
    pub tasks: Vec<Task>,
    pub start: usize,
    pub room: usize,
}

/// A plan that is to be changed and written.
pub struct Change {
    pub text: Vec<u8>,
    pub start: usize,
    pub room: usize,
}

/// The buffer of so many bytes.
pub fn letters(room: usize) -> Vec<u8> {
    (0..room).map(|place| b'a' + ((place + place / 26) % 26) as u8).collect()
}

fn words(numbers: &[u32]) -> Vec<u8> {
    numbers.iter().flat_map(|number| number.to_be_bytes()).collect()
}

fn two_words(start: usize) -> [u32; 2] {
    [(start as u64 >> 32) as u32, start as u32]
}

impl Case {
    fn of(table: &Table, start: usize, room: usize) -> Case {
        let Table { cores, policy, tasks } = table.clone();
        Case { cores, policy, tasks, start, room }
    }

    /// The text of the case.
    pub fn text(&self) -> Vec<u8> {
        let at_hand = &self.tasks[..self.tasks.len().min(MOST_TASKS)];
        let [high, low] = two_words(self.start);
        let n = self.tasks.len() as u32;
        let mut text = words(&[self.cores, self.policy, n, high, low, at_hand.len() as u32]);
        for task in at_hand {
            text.extend(words(&[task.flag, task.period, task.cost, task.deadline]));
        }
        text.extend(letters(self.room));
        text
    }

    pub fn expected(&self) -> String {
        let mut buffer = letters(self.room);
        let said = write_at(self.cores, self.policy, &self.tasks, &mut buffer, self.start);
        answer(said, &buffer)
    }
}

impl Change {
    pub fn text(&self) -> Vec<u8> {
        let [high, low] = two_words(self.start);
        let mut text = words(&[high, low, self.room as u32]);
        text.extend(letters(self.room));
        text.extend(&self.text);
        text
    }

    pub fn expected(&self) -> String {
        let mut buffer = letters(self.room);
        let said = write_changed(&self.text, &mut buffer, self.start, textbook::bound_of);
        answer(said, &buffer)
    }
}

/// The answer's line, and the buffer as a line.
fn answer(said: Result<usize, Refusal>, buffer: &[u8]) -> String {
    let line = match said {
        Ok(end) => format!("written {end}\n"),
        Err(refusal) => refusal_line(&refusal),
    };
    line + std::str::from_utf8(buffer).unwrap() + "\n"
}

/// Starts and lengths around a text of so many bytes: it just fits, one byte is missing, the start is at the
/// buffer's end, past it, and so large that no sum holds it.
fn places(size: usize, before: usize, after: usize) -> Vec<(usize, usize)> {
    let end = before + size;
    vec![
        (before, end + after),
        (before, end),
        (before, end - 1),
        (0, size),
        (0, size - 1),
        (0, 0),
        (before, before),
        (before + 1, before),
        (end, end),
        (usize::MAX, end),
        (usize::MAX - size, end),
        (usize::MAX - size + 1, end),
    ]
}

fn size(table: &Table) -> usize {
    11 + 31 * table.tasks.len()
}

/// All writing cases of the stored batch, in order.
pub fn cases() -> Vec<Case> {
    cases_from(SEED, 1500)
}

/// Writing cases, with so many random tables from this seed and as many with a fault.
pub fn cases_from(seed: u64, tables: u32) -> Vec<Case> {
    let mut all = Vec::new();
    let mut random = Random::new(seed);
    for n in [1, 2, 31, 32] {
        for (start, room) in places(size(&many(n)), 5, 3) {
            all.push(Case::of(&many(n), start, room));
        }
    }
    for _ in 0..tables {
        let table = small_table(&mut random, 3, 16, 1_000_000);
        let (before, after) = (random.small(0, 9) as usize, random.small(0, 9) as usize);
        let at = places(size(&table), before, after);
        let (start, room) = if random.once_in(2) { at[0] } else { random.pick(&at) };
        all.push(Case::of(&table, start, room));
        all.push(faulty(&mut random, &table, start, room));
    }
    all.push(list_of(0, 50));
    all.push(list_of(33, 2000));
    all.push(list_of(300, 2000));
    all
}

/// A list of so many tasks.
fn list_of(n: usize, room: usize) -> Case {
    let tasks = in_places(&vec![Task::of_four(1, 9, 1, 9); n]);
    Case { cores: 2, policy: 1, tasks, start: 0, room }
}

/// A table with one or two numbers outside their ranges, small or as large as they come.
fn faulty(random: &mut Random, table: &Table, start: usize, room: usize) -> Case {
    let mut case = Case::of(table, start, room);
    for _ in 0..random.small(1, 2) {
        let wrong = random.pick(&[0, 2, 17, 256, 257, 1_000_001, 16_777_216, 16_777_217, u32::MAX]);
        let at = random.between(0, case.tasks.len() as u64 - 1) as usize;
        match random.small(0, 5) {
            0 => case.cores = wrong,
            1 => case.policy = wrong,
            2 => case.tasks[at].flag = wrong,
            3 => case.tasks[at].period = wrong,
            4 => case.tasks[at].cost = wrong,
            _ => case.tasks[at].deadline = wrong,
        }
    }
    case
}

/// All cases of plans to be changed of the stored batch, in order.
pub fn changes() -> Vec<Change> {
    changes_from(SEED + 1, 1000)
}

/// Plans to be changed, with so many random ones from this seed, of which some are damaged and some have
/// letters lowered.
pub fn changes_from(seed: u64, plans: u32) -> Vec<Change> {
    let mut all = Vec::new();
    let mut random = Random::new(seed);
    for (_, table) in lettered() {
        for (start, room) in places(size(&table), 4, 2) {
            all.push(Change { text: write(&table), start, room });
        }
    }
    for _ in 0..plans {
        let table = small_table(&mut random, 4, 2, 12);
        let at = places(size(&table), random.small(0, 6) as usize, random.small(0, 6) as usize);
        let (start, room) = if random.once_in(4) { random.pick(&at) } else { at[0] };
        let mut text = write(&table);
        if random.once_in(8) {
            let place = random.between(0, text.len() as u64 - 1) as usize;
            text[place] = random.pick(b"0F1aG\n ");
        }
        lower_some(&mut random, &mut text);
        all.push(Change { text, start, room });
    }
    all
}
