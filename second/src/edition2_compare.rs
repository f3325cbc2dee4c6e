//! Compares another planner with this program, call by call, under either edition.
//!
//! The other planner is reached through two functions. Both take the job (0 for the test, 1 for forcing), the
//! edition (1 or 2) and the caller's list of records, three numbers each: flag, forced mark, bound.

use crate::compare::{self, flat_tasks, unflat, Compared, FORCE, TEST};
use crate::edition2::{bound_of, force, test};
use crate::edition2_cases;
use crate::edition2_hunt::edge_pair;
use crate::forcing::Record;
use crate::plan::{check_list, check_text, write, Refusal, Table};
use crate::random::Random;
use crate::tables::{all_small_tables, near_edge, small_table};
use crate::texts::{damaged, off_border};
use crate::{word, word_tables};

/// What a call returns besides its records.
#[derive(Clone, Copy, Debug, Default, PartialEq, Eq)]
pub struct Said {
    /// The refusal's number, or 0.
    pub number: u32,
    pub place: u32,
    /// Whether the test says yes, or forcing accepts.
    pub yes: bool,
    pub forced: u32,
    /// The passes of forcing; 0 from the test.
    pub passes: u32,
    /// The rounds of the last test under edition 2, also with a no; 0 under edition 1 and in every refusal.
    pub rounds: u32,
    /// The flags word of the records; 0 in every refusal.
    pub word: u32,
}

/// The other planner.
pub trait Planner {
    /// Job, edition, plan text, records.
    fn text(&self, job: u32, edition: u32, text: &[u8], records: &mut [u32]) -> Said;

    /// Job, edition, cores and policy, tasks (flag, T, C, D each), records.
    fn list(&self, job: u32, edition: u32, head: [u32; 2], tasks: &[u32], records: &mut [u32]) -> Said;

    /// Whether it tells the flags word; where it does not, that is not compared.
    fn tells_word(&self) -> bool {
        true
    }
}

// ---------------------------------------------------------------- what is expected

/// What is said, and the numbers at the start of the caller's list that are written: none in a refusal.
pub type Answer = (Said, Vec<u32>);

pub fn refused(refusal: Refusal) -> Answer {
    let Refusal { number, place, passes } = refusal;
    (Said { number, place, passes, ..Said::default() }, Vec::new())
}

pub fn flat(records: &[Record]) -> Vec<u32> {
    records.iter().flat_map(|record| [record.flag, record.forced, record.bound]).collect()
}

/// The answer under edition 1, taken apart.
fn first_edition(job: u32, checked: Result<Table, Refusal>) -> Answer {
    let compare::Answer { told: (told, word), records } = compare::answer(job, checked);
    let byte = |at: u32| (told >> at) as u32 % 256;
    let (number, place, forced, passes) = (byte(0), byte(8), byte(16), byte(24));
    (Said { number, place, yes: told >> 32 == 1, forced, passes, rounds: 0, word }, records)
}

/// The answer for a table that was checked, or for its refusal.
pub fn answer(job: u32, edition: u32, checked: Result<Table, Refusal>) -> Answer {
    if edition == 1 {
        return first_edition(job, checked);
    }
    let table = match checked {
        Ok(table) => table,
        Err(refusal) => return refused(refusal),
    };
    if job == TEST {
        let answer = test(&table, bound_of);
        let word = word::due(&answer.records);
        let said = Said { yes: answer.yes, rounds: answer.rounds, word, ..Said::default() };
        return (said, flat(&answer.records));
    }
    match force(&table, bound_of) {
        Err(refusal) => refused(refusal),
        Ok(answer) => {
            let (forced, passes, rounds) = (answer.forced, answer.passes, answer.rounds);
            let word = word::due(&answer.records);
            (Said { yes: true, forced, passes, rounds, word, ..Said::default() }, flat(&answer.records))
        }
    }
}

/// A planner that is given by its answer for a table that was checked.
pub struct Answering<A: Fn(u32, u32, Result<Table, Refusal>) -> Answer>(pub A);

impl<A: Fn(u32, u32, Result<Table, Refusal>) -> Answer> Planner for Answering<A> {
    fn text(&self, job: u32, edition: u32, text: &[u8], records: &mut [u32]) -> Said {
        deliver((self.0)(job, edition, check_text(text, records.len() / 3)), records)
    }

    fn list(&self, job: u32, edition: u32, head: [u32; 2], tasks: &[u32], records: &mut [u32]) -> Said {
        let checked = check_list(head[0], head[1], &unflat(tasks), records.len() / 3);
        deliver((self.0)(job, edition, checked), records)
    }
}

fn deliver((said, written): Answer, records: &mut [u32]) -> Said {
    records[..written.len()].copy_from_slice(&written);
    said
}

/// This program behind the same two functions.
pub fn own() -> impl Planner {
    Answering(answer)
}

// ---------------------------------------------------------------- one call

/// Numbers that no answer holds, each place with its own, so that any write shows.
fn untouched(room: usize) -> Vec<u32> {
    (0..3 * room as u32).map(|at| 0xA5A5_0000 + at).collect()
}

/// Calls, and compares what is said and all of the caller's list.
fn call(
    expected: Answer,
    room: usize,
    tells_word: bool,
    other: impl FnOnce(&mut [u32]) -> Said,
) -> Result<(), String> {
    let mut wanted = untouched(room);
    let mut due = deliver(expected, &mut wanted);
    let mut records = untouched(room);
    let said = other(&mut records);
    due.word = if tells_word { due.word } else { said.word };
    if said != due {
        return Err(format!("said {said:?}, expected {due:?}"));
    }
    if records != wanted {
        return Err(format!("left the list as {records:?}, expected {wanted:?}"));
    }
    Ok(())
}

/// One text, one job, one edition.
pub fn text_call(planner: &impl Planner, call_of: [u32; 2], text: &[u8], room: usize) -> Result<(), String> {
    let [job, edition] = call_of;
    let shown = || format!("job {job}, edition {edition}, room {room}, {:?}", String::from_utf8_lossy(text));
    let expected = answer(job, edition, check_text(text, room));
    call(expected, room, planner.tells_word(), |records| planner.text(job, edition, text, records))
        .map_err(|difference| format!("{}: {difference}", shown()))
}

/// One list, one job, one edition. The numbers need not be legal.
pub fn list_call(
    planner: &impl Planner,
    call_of: [u32; 2],
    table: &Table,
    room: usize,
) -> Result<(), String> {
    let [job, edition] = call_of;
    let Table { cores, policy, tasks } = table;
    let numbers = flat_tasks(tasks);
    let expected = answer(job, edition, check_list(*cores, *policy, &unflat(&numbers), room));
    let run = |records: &mut [u32]| planner.list(job, edition, [*cores, *policy], &numbers, records);
    call(expected, room, planner.tells_word(), run)
        .map_err(|difference| format!("job {job}, edition {edition}, room {room}, {table:?}: {difference}"))
}

/// Both jobs under both editions.
const CALLS: [[u32; 2]; 4] = [[TEST, 2], [FORCE, 2], [TEST, 1], [FORCE, 1]];

/// Room for n records, or now and then for more; and rooms for fewer, to be tried besides.
fn rooms(count: usize, n: usize) -> Vec<usize> {
    match count % 16 {
        0 => vec![n, n - 1],
        1 => vec![n, 0],
        2 => vec![n + 1],
        3 => vec![40],
        _ => vec![n],
    }
}

// ---------------------------------------------------------------- loops

/// Tables by both jobs under both editions, as lists and, each fourth, as texts.
pub fn over_tables(planner: &impl Planner, tables: impl Iterator<Item = Table>) -> Compared {
    let mut calls = 0;
    for (count, table) in tables.enumerate() {
        for room in rooms(count, table.tasks.len()) {
            for call_of in CALLS {
                list_call(planner, call_of, &table, room)?;
                calls += 1;
                if count % 4 == 3 {
                    text_call(planner, call_of, &write(&table), room)?;
                    calls += 1;
                }
            }
        }
    }
    Ok(calls)
}

/// The tables made for this edition.
pub fn made(planner: &impl Planner) -> Compared {
    let calls = over_tables(planner, edition2_cases::known().into_iter().map(|case| case.table))?;
    Ok(calls + over_tables(planner, edition2_cases::kinds().iter().cloned())?)
}

/// Those with the most rounds.
pub fn long(planner: &impl Planner) -> Compared {
    let cases = edition2_cases::long().into_iter().chain(edition2_cases::longest());
    over_tables(planner, cases.map(|case| case.table))
}

/// Random tables with small times.
pub fn drawn(planner: &impl Planner, seed: u64, count: usize) -> Compared {
    let mut random = Random::new(seed);
    over_tables(planner, (0..count).map(|_| small_table(&mut random, 8, 4, 60)))
}

/// Pairs at the edge of either edition, n to 32 and T to `longest`.
pub fn edges(planner: &impl Planner, seed: u64, count: usize, longest: u32) -> Compared {
    let mut random = Random::new(seed);
    let pairs = (0..count).map(|_| edge_pair(&mut random, 32, longest));
    let calls = over_tables(planner, pairs.flat_map(|(inside, outside)| [inside, outside]))?;
    Ok(calls + over_tables(planner, near_edge(seed).take(count))?)
}

/// Texts damaged at random, and lists with numbers on or beside a border.
pub fn damages(planner: &impl Planner, seed: u64, count: usize) -> Compared {
    let mut random = Random::new(seed);
    for round in 0..count {
        let table = small_table(&mut random, 6, 16, 300);
        let (text, off) = (damaged(&mut random, &table), off_border(&mut random, &table));
        for call_of in CALLS {
            text_call(planner, call_of, &text, rooms(round, table.tasks.len())[0])?;
            list_call(planner, call_of, &off, rooms(round, off.tasks.len())[0])?;
        }
    }
    Ok(8 * count as u64)
}

/// The tables made for the flags word.
pub fn words(planner: &impl Planner) -> Compared {
    over_tables(planner, word_tables::tables().iter().cloned())
}

/// A part of everything, in seconds: for every change.
pub fn short(planner: &impl Planner, seed: u64) -> Compared {
    let mut calls = made(planner)?;
    calls += over_tables(planner, all_small_tables().step_by(191))?;
    calls += drawn(planner, seed, 2_000)?;
    calls += edges(planner, seed, 10, 1_000)?;
    calls += damages(planner, seed, 1_000)?;
    calls += words(planner)?;
    Ok(calls)
}

/// Everything, in a minute or so.
pub fn everything(planner: &impl Planner, seed: u64) -> Compared {
    let mut calls = made(planner)?;
    calls += long(planner)?;
    calls += over_tables(planner, all_small_tables().step_by(3))?;
    calls += drawn(planner, seed, 60_000)?;
    calls += edges(planner, seed, 400, 1_000)?;
    calls += edges(planner, seed + 1, 100, 1_000_000)?;
    calls += damages(planner, seed, 30_000)?;
    calls += words(planner)?;
    Ok(calls)
}
