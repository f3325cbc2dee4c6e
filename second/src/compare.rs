//! Compares another planner with this program, call by call.
//!
//! The other planner is reached through two functions. Both take the job (0 for the test, 1 for forcing) and
//! the caller's list of records, three numbers each: flag, forced mark, bound. Both return
//! number + 256 * place + 2^16 * forced + 2^24 * passes + 2^32 * (1 for a yes or an accepted forcing),
//! and the flags word.

use crate::forcing::{force, test, Record};
use crate::hand::case_a;
use crate::plan::{check_list, check_text, in_places, write, Refusal, Table, Task};
use crate::plan_cases;
use crate::random::Random;
use crate::reading_cases;
use crate::tables::{all_small_tables, near_edge, small_table};
use crate::texts::{damaged, off_border};
use crate::{bound, textbook, word, word_tables};

pub const TEST: u32 = 0;
pub const FORCE: u32 = 1;

/// The returned number, and the flags word.
pub type Told = (u64, u32);

/// Job, plan text, records.
pub type TextCall = fn(u32, &[u8], &mut [u32]) -> Told;

/// Job, cores, policy, tasks (flag, T, C, D each), records.
pub type ListCall = fn(u32, u32, u32, &[u32], &mut [u32]) -> Told;

/// The other planner.
#[derive(Clone, Copy)]
pub struct Planner {
    pub text: TextCall,
    pub list: ListCall,
    /// Whether it tells the flags word; where it does not, that is not compared.
    pub tells_word: bool,
}

/// How many calls agreed, or what the first difference is.
pub type Compared = Result<u64, String>;

// ---------------------------------------------------------------- what is expected

/// What is returned, and the numbers at the start of the caller's list that are written; none of them in a
/// refusal.
#[derive(Debug, PartialEq, Eq)]
pub struct Answer {
    pub told: Told,
    pub records: Vec<u32>,
}

fn refused(refusal: Refusal) -> Answer {
    let Refusal { number, place, passes } = refusal;
    let told = number as u64 + ((place as u64) << 8) + ((passes as u64) << 24);
    Answer { told: (told, 0), records: Vec::new() }
}

fn flat(records: &[Record]) -> Vec<u32> {
    records.iter().flat_map(|record| [record.flag, record.forced, record.bound]).collect()
}

/// The literal search where it is quick enough, the textbook iteration elsewhere.
pub fn bound_of(table: &Table, flags: &[u32], k: usize) -> Option<u32> {
    if table.tasks[k].deadline <= 200 {
        bound::bound_of(table, flags, k)
    } else {
        textbook::bound_of(table, flags, k)
    }
}

/// The answer for a table that was checked, or for its refusal. A no is not a refusal: it writes records.
pub fn answer(job: u32, checked: Result<Table, Refusal>) -> Answer {
    let table = match checked {
        Ok(table) => table,
        Err(refusal) => return refused(refusal),
    };
    if job == TEST {
        let (yes, records) = test(&table, bound_of);
        return Answer { told: (u64::from(yes) << 32, word::due(&records)), records: flat(&records) };
    }
    match force(&table, bound_of) {
        Err(refusal) => refused(refusal),
        Ok(forced) => {
            let told = ((forced.forced as u64) << 16) + ((forced.passes as u64) << 24) + (1 << 32);
            Answer { told: (told, word::due(&forced.records)), records: flat(&forced.records) }
        }
    }
}

/// This program behind the same two functions, so that the comparison itself can be tried.
pub const OWN: Planner = Planner { text: own_text, list: own_list, tells_word: true };

fn own_text(job: u32, text: &[u8], records: &mut [u32]) -> Told {
    deliver(answer(job, check_text(text, records.len() / 3)), records)
}

fn own_list(job: u32, cores: u32, policy: u32, tasks: &[u32], records: &mut [u32]) -> Told {
    deliver(answer(job, check_list(cores, policy, &unflat(tasks), records.len() / 3)), records)
}

fn deliver(answer: Answer, records: &mut [u32]) -> Told {
    records[..answer.records.len()].copy_from_slice(&answer.records);
    answer.told
}

/// Four numbers to a task: the places are the levels.
pub fn unflat(numbers: &[u32]) -> Vec<Task> {
    let task = |four: &[u32]| Task::of_four(four[0], four[1], four[2], four[3]);
    in_places(&numbers.chunks(4).map(task).collect::<Vec<Task>>())
}

pub fn flat_tasks(tasks: &[Task]) -> Vec<u32> {
    tasks.iter().flat_map(|task| [task.flag, task.period, task.cost, task.deadline]).collect()
}

// ---------------------------------------------------------------- one call

/// Numbers that no answer holds, each place with its own, so that any write shows.
fn untouched(room: usize) -> Vec<u32> {
    (0..3 * room as u32).map(|at| 0xA5A5_0000 + at).collect()
}

/// Calls, and compares what is returned and all of the caller's list.
fn call(
    expected: Answer,
    room: usize,
    tells_word: bool,
    other: impl FnOnce(&mut [u32]) -> Told,
) -> Result<(), String> {
    let mut wanted = untouched(room);
    wanted[..expected.records.len()].copy_from_slice(&expected.records);
    let mut records = untouched(room);
    let (told, word) = other(&mut records);
    let (due, due_word) = expected.told;
    if told != due {
        return Err(format!("returned {told:#x}, expected {due:#x}"));
    }
    if tells_word && word != due_word {
        return Err(format!("told the word {word:08X}, expected {due_word:08X}"));
    }
    if records != wanted {
        return Err(format!("left the list as {records:?}, expected {wanted:?}"));
    }
    Ok(())
}

/// One text, one job.
pub fn text_call(planner: &Planner, job: u32, text: &[u8], room: usize) -> Result<(), String> {
    let expected = answer(job, check_text(text, room));
    let shown = || format!("job {job}, room {room}, text {:?}", String::from_utf8_lossy(text));
    call(expected, room, planner.tells_word, |records| (planner.text)(job, text, records))
        .map_err(|difference| format!("{}: {difference}", shown()))
}

/// One list, one job. The numbers need not be legal.
pub fn list_call(planner: &Planner, job: u32, table: &Table, room: usize) -> Result<(), String> {
    let Table { cores, policy, tasks } = table;
    let numbers = flat_tasks(tasks);
    let expected = answer(job, check_list(*cores, *policy, &unflat(&numbers), room));
    let run = |records: &mut [u32]| (planner.list)(job, *cores, *policy, &numbers, records);
    call(expected, room, planner.tells_word, run)
        .map_err(|difference| format!("job {job}, room {room}, {table:?}: {difference}"))
}

/// A table by both jobs, as a list and as a text, with this room.
fn table_calls(planner: &Planner, table: &Table, room: usize) -> Compared {
    let text = write(table);
    for job in [TEST, FORCE] {
        list_call(planner, job, table, room)?;
        text_call(planner, job, &text, room)?;
    }
    Ok(4)
}

/// Room for n records, for more, and now and then for fewer.
fn room(count: u64, n: usize) -> usize {
    match count % 8 {
        0 => n - 1,
        1 => 0,
        2 => n + 1,
        3 => 40,
        _ => n,
    }
}

// ---------------------------------------------------------------- loops

fn over_tables(planner: &Planner, tables: impl Iterator<Item = Table>) -> Compared {
    let mut calls = 0;
    for (count, table) in tables.enumerate() {
        calls += table_calls(planner, &table, room(count as u64, table.tasks.len()))?;
    }
    Ok(calls)
}

/// All tables with T <= 4, n <= 3, m <= 3; of these only each `step`-th.
pub fn small(planner: &Planner, step: usize) -> Compared {
    over_tables(planner, all_small_tables().step_by(step))
}

/// Random tables near the edge of acceptance, n to 32 and T to 1,000,000.
pub fn edges(planner: &Planner, seed: u64, count: usize) -> Compared {
    over_tables(planner, near_edge(seed).take(count))
}

/// Random tables with small times.
pub fn drawn(planner: &Planner, seed: u64, count: usize) -> Compared {
    let mut random = Random::new(seed);
    over_tables(planner, (0..count).map(|_| small_table(&mut random, 8, 4, 60)))
}

/// Texts damaged at random.
pub fn texts(planner: &Planner, seed: u64, count: u64) -> Compared {
    let mut random = Random::new(seed);
    for round in 0..count {
        let table = small_table(&mut random, 6, 16, 300);
        let text = damaged(&mut random, &table);
        for job in [TEST, FORCE] {
            text_call(planner, job, &text, room(round, table.tasks.len()))?;
        }
    }
    Ok(2 * count)
}

/// Lists with numbers on or beside a border, lists without tasks and with too many.
pub fn lists(planner: &Planner, seed: u64, count: u64) -> Compared {
    let mut random = Random::new(seed);
    for round in 0..count {
        let mut table = small_table(&mut random, 6, 16, 300);
        for _ in 0..random.small(0, 3) {
            table = off_border(&mut random, &table);
        }
        if random.once_in(8) {
            table.tasks = vec![case_a().tasks[1]; random.pick(&[0, 1, 31, 32, 33, 40, 64])];
        }
        let room = room(round, table.tasks.len().max(1));
        for job in [TEST, FORCE] {
            list_call(planner, job, &table, room)?;
        }
    }
    Ok(2 * count)
}

/// The tables made for the flags word.
pub fn words(planner: &Planner) -> Compared {
    over_tables(planner, word_tables::tables().iter().cloned())
}

/// The texts of the two batches.
pub fn batches(planner: &Planner) -> Compared {
    let mut all: Vec<Vec<u8>> = reading_cases::cases().into_iter().map(|case| case.text).collect();
    all.extend(plan_cases::cases());
    for (count, text) in all.iter().enumerate() {
        for job in [TEST, FORCE] {
            text_call(planner, job, text, if count % 5 == 0 { 2 } else { 32 })?;
        }
    }
    Ok(2 * all.len() as u64)
}

/// Each `step`-th small table, so many tables at the edge, and so many of each other kind.
fn amount(planner: &Planner, seed: u64, step: usize, edge: usize, others: usize) -> Compared {
    let mut calls = small(planner, step)?;
    calls += edges(planner, seed, edge)?;
    calls += drawn(planner, seed, others)?;
    calls += texts(planner, seed, others as u64)?;
    calls += lists(planner, seed, others as u64)?;
    calls += batches(planner)?;
    calls += words(planner)?;
    Ok(calls)
}

/// A part of everything, in seconds: for every change.
pub fn short(planner: &Planner, seed: u64) -> Compared {
    amount(planner, seed, 7, 300, 5_000)
}

/// Everything, in a minute or so.
pub fn everything(planner: &Planner, seed: u64) -> Compared {
    amount(planner, seed, 1, 2_000, 50_000)
}
