//! Compares another search for the fewest cores with this program, call by call.
//!
//! The other one is reached through two functions. Both take the caller's list of records, three numbers
//! each: flag, forced mark, bound.

use crate::compare::{bound_of, flat_tasks, unflat, Compared};
use crate::edition2_compare::flat;
use crate::fewest::{fewest_of_list, fewest_of_text, Fewest};
use crate::fewest_tables;
use crate::plan::{write, Refusal, Table};
use crate::random::Random;
use crate::tables::{all_small_tables, small_table};
use crate::texts::{damaged, lower_some, off_border};
use crate::{word, word_tables};

/// What a call returns besides its records.
#[derive(Clone, Copy, Debug, Default, PartialEq, Eq)]
pub struct Said {
    /// The refusal's number, or 0.
    pub number: u32,
    pub place: u32,
    /// The fewest cores; 0 in every refusal.
    pub cores: u32,
    /// 0 in every refusal.
    pub forced: u32,
    /// Those at the fewest cores; under 14 those at 16 cores; 0 in every other refusal.
    pub passes: u32,
    /// The flags word of the records; 0 in every refusal.
    pub word: u32,
}

/// The other search.
pub trait Searcher {
    /// Plan text, records.
    fn text(&self, text: &[u8], records: &mut [u32]) -> Said;

    /// Cores and policy, tasks (flag, T, C, D each), records.
    fn list(&self, head: [u32; 2], tasks: &[u32], records: &mut [u32]) -> Said;

    /// Whether it tells the flags word; where it does not, that is not compared.
    fn tells_word(&self) -> bool {
        true
    }
}

// ---------------------------------------------------------------- what is expected

/// What is said, and the numbers at the start of the caller's list that are written: none in a refusal.
pub type Answer = (Said, Vec<u32>);

pub fn answer(found: Result<Fewest, Refusal>) -> Answer {
    match found {
        Err(Refusal { number, place, passes }) => {
            (Said { number, place, passes, ..Said::default() }, Vec::new())
        }
        Ok(Fewest { cores, forcing }) => {
            let (forced, passes, word) = (forcing.forced, forcing.passes, word::due(&forcing.records));
            let said = Said { cores, forced, passes, word, ..Said::default() };
            (said, flat(&forcing.records))
        }
    }
}

pub fn deliver((said, written): Answer, records: &mut [u32]) -> Said {
    records[..written.len()].copy_from_slice(&written);
    said
}

fn expected_of_text(text: &[u8], room: usize) -> Answer {
    answer(fewest_of_text(text, room, bound_of))
}

fn expected_of_list(head: [u32; 2], tasks: &[u32], room: usize) -> Answer {
    answer(fewest_of_list(head[0], head[1], &unflat(tasks), room, bound_of))
}

/// This program behind the same two functions.
pub struct Own;

impl Searcher for Own {
    fn text(&self, text: &[u8], records: &mut [u32]) -> Said {
        deliver(expected_of_text(text, records.len() / 3), records)
    }

    fn list(&self, head: [u32; 2], tasks: &[u32], records: &mut [u32]) -> Said {
        deliver(expected_of_list(head, tasks, records.len() / 3), records)
    }
}

// ---------------------------------------------------------------- one call

/// Numbers that no answer holds, each place with its own, so that any write shows.
fn untouched(room: usize) -> Vec<u32> {
    (0..3 * room as u32).map(|at| 0xA5A5_0000 + at).collect()
}

/// Calls, and compares what is said and all of the caller's list.
fn call(
    expected: Answer,
    room: usize,
    tells_word: bool,
    other: impl FnOnce(&mut [u32]) -> Said,
) -> Result<(), String> {
    let mut wanted = untouched(room);
    let mut due = deliver(expected, &mut wanted);
    let mut records = untouched(room);
    let said = other(&mut records);
    due.word = if tells_word { due.word } else { said.word };
    if said != due {
        return Err(format!("said {said:?}, expected {due:?}"));
    }
    if records != wanted {
        return Err(format!("left the list as {records:?}, expected {wanted:?}"));
    }
    Ok(())
}

/// One text.
pub fn text_call(searcher: &impl Searcher, text: &[u8], room: usize) -> Result<(), String> {
    let run = |records: &mut [u32]| searcher.text(text, records);
    call(expected_of_text(text, room), room, searcher.tells_word(), run)
        .map_err(|what| format!("room {room}, {:?}: {what}", String::from_utf8_lossy(text)))
}

/// One list. The numbers need not be legal.
pub fn list_call(searcher: &impl Searcher, table: &Table, room: usize) -> Result<(), String> {
    let (head, numbers) = ([table.cores, table.policy], flat_tasks(&table.tasks));
    let run = |records: &mut [u32]| searcher.list(head, &numbers, records);
    call(expected_of_list(head, &numbers, room), room, searcher.tells_word(), run)
        .map_err(|what| format!("room {room}, {table:?}: {what}"))
}

/// Room for n records, or now and then for more; and rooms for fewer, to be tried besides.
fn rooms(count: usize, n: usize) -> Vec<usize> {
    match count % 8 {
        0 => vec![n, n - 1],
        1 => vec![n, 0],
        2 => vec![n + 1],
        3 => vec![40],
        _ => vec![n],
    }
}

// ---------------------------------------------------------------- loops

/// Tables as lists and, each third, as texts, of which some have letters lowered.
pub fn over_tables(searcher: &impl Searcher, tables: impl Iterator<Item = Table>) -> Compared {
    let mut random = Random::new(7);
    let mut calls = 0;
    for (count, table) in tables.enumerate() {
        for room in rooms(count, table.tasks.len()) {
            list_call(searcher, &table, room)?;
            calls += 1;
            if count % 3 == 0 {
                let mut text = write(&table);
                lower_some(&mut random, &mut text);
                text_call(searcher, &text, room)?;
                calls += 1;
            }
        }
    }
    Ok(calls)
}

/// The tables made for this: those worked out by hand, and some of each kind.
pub fn made(searcher: &impl Searcher) -> Compared {
    let calls = over_tables(searcher, fewest_tables::by_hand().into_iter().map(|case| case.table))?;
    Ok(calls + over_tables(searcher, fewest_tables::kinds().iter().cloned())?)
}

/// Random tables with small times; the head's core number is random too.
pub fn drawn(searcher: &impl Searcher, seed: u64, count: usize) -> Compared {
    let mut random = Random::new(seed);
    let most = |round: usize| [3, 8, 20, 32][round % 4];
    over_tables(searcher, (0..count).map(|round| small_table(&mut random, most(round), 16, 60)))
}

/// Pairs at the edge of each number of cores, T to `longest`, the head's number far from it.
pub fn edges(searcher: &impl Searcher, seed: u64, count: usize, longest: u32) -> Compared {
    let mut random = Random::new(seed);
    let pairs = (0..count).map(|round| fewest_tables::edge(&mut random, 1 + round as u32 % 16, longest));
    over_tables(searcher, pairs.flat_map(|(inside, outside)| [inside, outside]))
}

/// Texts damaged at random, lists with numbers on or beside a border, and lists of any length.
pub fn damages(searcher: &impl Searcher, seed: u64, count: usize) -> Compared {
    let mut random = Random::new(seed);
    for round in 0..count {
        let table = small_table(&mut random, 6, 16, 60);
        let mut off = table.clone();
        for _ in 0..random.small(1, 3) {
            off = off_border(&mut random, &off);
        }
        if random.once_in(16) {
            off.tasks = vec![table.tasks[0]; random.pick(&[0, 17, 31, 32, 33, 40])];
        }
        let room = [table.tasks.len(), 32, off.tasks.len(), 0, 2][round % 5];
        text_call(searcher, &damaged(&mut random, &table), room)?;
        list_call(searcher, &off, room)?;
    }
    Ok(2 * count as u64)
}

/// The tables made for the flags word.
pub fn words(searcher: &impl Searcher) -> Compared {
    over_tables(searcher, word_tables::tables().iter().cloned())
}

/// A part of everything, in seconds: for every change.
pub fn short(searcher: &impl Searcher, seed: u64) -> Compared {
    let mut calls = made(searcher)?;
    calls += over_tables(searcher, all_small_tables().step_by(191))?;
    calls += drawn(searcher, seed, 1_000)?;
    calls += edges(searcher, seed, 32, 1_000)?;
    calls += damages(searcher, seed, 2_000)?;
    calls += words(searcher)?;
    Ok(calls)
}

/// Everything, in a minute or so.
pub fn everything(searcher: &impl Searcher, seed: u64) -> Compared {
    let mut calls = made(searcher)?;
    calls += over_tables(searcher, all_small_tables().step_by(3))?;
    calls += drawn(searcher, seed, 20_000)?;
    calls += edges(searcher, seed, 480, 1_000)?;
    calls += edges(searcher, seed + 1, 96, 1_000_000)?;
    calls += damages(searcher, seed, 60_000)?;
    calls += words(searcher)?;
    Ok(calls)
}
