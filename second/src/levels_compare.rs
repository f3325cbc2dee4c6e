//! Compares another planner's calls on tables with levels with this program, call by call: five numbers to a
//! task, flag, T, C, D, level.

use crate::compare::{self, Compared, FORCE, TEST};
use crate::compare_writing;
use crate::fewest::fewest_of_list;
use crate::levels::{flat, leveled, off_level, unflat};
use crate::plan::{check_list, Table};
use crate::random::Random;
use crate::tables::small_table;
use crate::texts::off_border;
use crate::writing::write_at;
use crate::{edition2_compare, fewest_compare, levels_tables};

/// What is asked.
#[derive(Clone, Copy, Debug, PartialEq, Eq)]
pub enum Job {
    Test,
    Force,
    /// Under the second edition.
    Test2,
    Force2,
    /// The fewest cores, under the first.
    Fewest,
}

pub const JOBS: [Job; 5] = [Job::Test, Job::Force, Job::Test2, Job::Force2, Job::Fewest];

/// What a call returns besides its records. Each is 0 where the call has nothing to say of it.
#[derive(Clone, Copy, Debug, Default, PartialEq, Eq)]
pub struct Said {
    pub number: u32,
    pub place: u32,
    pub yes: bool,
    pub forced: u32,
    pub passes: u32,
    pub rounds: u32,
    pub cores: u32,
    pub word: u32,
}

/// The other planner. Head is cores and policy.
pub trait Leveled {
    /// Job, head, tasks, records.
    fn call(&self, job: Job, head: [u32; 2], tasks: &[u32], records: &mut [u32]) -> Said;

    /// Head, tasks, buffer, start.
    fn write(&self, head: [u32; 2], tasks: &[u32], buffer: &mut [u8], start: usize) -> compare_writing::Said;
}

// ---------------------------------------------------------------- what is expected

/// What is said, and the numbers at the start of the caller's list that are written: none in a refusal.
pub type Answer = (Said, Vec<u32>);

/// The answer of a test or a forcing, as this comparison has it.
pub fn of_edition((said, records): edition2_compare::Answer) -> Answer {
    let edition2_compare::Said { number, place, yes, forced, passes, rounds, word } = said;
    (Said { number, place, yes, forced, passes, rounds, cores: 0, word }, records)
}

pub fn of_fewest((said, records): fewest_compare::Answer) -> Answer {
    let fewest_compare::Said { number, place, cores, forced, passes, word } = said;
    (Said { number, place, yes: number == 0, forced, passes, rounds: 0, cores, word }, records)
}

fn expected(job: Job, head: [u32; 2], tasks: &[u32], room: usize) -> Answer {
    let ([cores, policy], tasks) = (head, unflat(tasks));
    let (job, edition) = match job {
        Job::Test => (TEST, 1),
        Job::Force => (FORCE, 1),
        Job::Test2 => (TEST, 2),
        Job::Force2 => (FORCE, 2),
        Job::Fewest => {
            let found = fewest_of_list(cores, policy, &tasks, room, compare::bound_of);
            return of_fewest(fewest_compare::answer(found));
        }
    };
    of_edition(edition2_compare::answer(job, edition, check_list(cores, policy, &tasks, room)))
}

pub fn deliver((said, written): Answer, records: &mut [u32]) -> Said {
    records[..written.len()].copy_from_slice(&written);
    said
}

/// This program behind the same two functions.
pub struct Own;

impl Leveled for Own {
    fn call(&self, job: Job, head: [u32; 2], tasks: &[u32], records: &mut [u32]) -> Said {
        deliver(expected(job, head, tasks, records.len() / 3), records)
    }

    fn write(&self, head: [u32; 2], tasks: &[u32], buffer: &mut [u8], start: usize) -> compare_writing::Said {
        write_at(head[0], head[1], &unflat(tasks), buffer, start)
            .map_err(|refusal| (refusal.number, refusal.place, refusal.passes))
    }
}

// ---------------------------------------------------------------- one call

/// Numbers that no answer holds, each place with its own, so that any write shows.
fn untouched(room: usize) -> Vec<u32> {
    (0..3 * room as u32).map(|at| 0xA5A5_0000 + at).collect()
}

/// One list of numbers, one job. They need not be legal, nor five for the last task.
pub fn list_call(
    other: &impl Leveled,
    job: Job,
    head: [u32; 2],
    tasks: &[u32],
    room: usize,
) -> Result<(), String> {
    let (mut wanted, mut records) = (untouched(room), untouched(room));
    let due = Own.call(job, head, tasks, &mut wanted);
    let said = other.call(job, head, tasks, &mut records);
    let shown = || format!("{job:?}, head {head:?}, room {room}, tasks {tasks:?}");
    if said != due {
        return Err(format!("{}: said {said:?}, expected {due:?}", shown()));
    }
    if records != wanted {
        return Err(format!("{}: left the list as {records:?}, expected {wanted:?}", shown()));
    }
    Ok(())
}

/// One list of numbers, one buffer.
pub fn write_call(
    other: &impl Leveled,
    head: [u32; 2],
    tasks: &[u32],
    room: usize,
    start: usize,
) -> Result<(), String> {
    compare_writing::call(
        room,
        |buffer| Own.write(head, tasks, buffer, start),
        |buffer| other.write(head, tasks, buffer, start),
    )
    .map_err(|what| format!("write, head {head:?}, room {room}, start {start}, tasks {tasks:?}: {what}"))
}

// ---------------------------------------------------------------- loops

/// Room for n records, or now and then for more; and rooms for fewer, to be tried besides.
fn rooms(count: usize, n: usize) -> Vec<usize> {
    match count % 16 {
        0 => vec![n, n.saturating_sub(1)],
        1 => vec![n, 0],
        2 => vec![n + 1],
        3 => vec![40],
        _ => vec![n],
    }
}

/// A buffer and a start: just enough, one byte less, a start in the middle, past the end, far away.
fn buffers(count: usize, n: usize) -> (usize, usize) {
    let size = 11 + 31 * n;
    match count % 8 {
        0 => (size, 0),
        1 => (size - 1, 0),
        2 => (size + 9, 9),
        3 => (size + 9, 10),
        4 => (20, 21),
        5 => (size, usize::MAX),
        6 => (0, 0),
        _ => (size + 40, 7),
    }
}

/// Tables by every job, and written; five calls or more each.
pub fn over_tables(other: &impl Leveled, tables: impl Iterator<Item = Table>) -> Compared {
    let mut calls = 0;
    for (count, table) in tables.enumerate() {
        let (head, numbers) = ([table.cores, table.policy], flat(&table.tasks));
        for room in rooms(count, table.tasks.len()) {
            for job in JOBS {
                list_call(other, job, head, &numbers, room)?;
                calls += 1;
            }
        }
        let (room, start) = buffers(count, table.tasks.len());
        write_call(other, head, &numbers, room, start)?;
        calls += 1;
    }
    Ok(calls)
}

/// The tables made for levels: those worked out by hand, and some of each kind.
pub fn made(other: &impl Leveled) -> Compared {
    let calls = over_tables(other, levels_tables::by_hand().into_iter().map(|case| case.table))?;
    Ok(calls + over_tables(other, levels_tables::kinds().iter().cloned())?)
}

/// Each `step`-th of all small tables in every order.
pub fn small(other: &impl Leveled, step: usize) -> Compared {
    over_tables(other, levels_tables::all(3, 3, 2).step_by(step))
}

/// Random tables with small times.
pub fn drawn(other: &impl Leveled, seed: u64, count: usize) -> Compared {
    let mut random = Random::new(seed);
    let most = |round: usize| [3, 8, 8, 32][round % 4];
    over_tables(other, (0..count).map(|round| levels_tables::small(&mut random, most(round), 16, 60)))
}

/// Pairs at the edge of acceptance, n to 32 and T to `longest`.
pub fn edges(other: &impl Leveled, seed: u64, count: u32, longest: u32) -> Compared {
    let mut random = Random::new(seed);
    let pairs = (0..count).map(|round| levels_tables::edge(&mut random, round % 2, 32, longest));
    over_tables(other, pairs.flat_map(|(inside, outside)| [inside, outside]))
}

/// Tables with one fault or several, levels among them; lists that are cut off; lists of any length.
pub fn damages(other: &impl Leveled, seed: u64, count: usize) -> Compared {
    let mut random = Random::new(seed);
    let mut calls = 0;
    for round in 0..count {
        let table = small_table(&mut random, 6, 16, 60);
        let mut off = if random.once_in(4) { table } else { leveled(&mut random, &table) };
        for _ in 0..random.small(0, 3) {
            let level = random.once_in(2);
            off = if level { off_level(&mut random, &off) } else { off_border(&mut random, &off) };
        }
        if random.once_in(16) {
            off.tasks = vec![off.tasks[0]; random.pick(&[0, 17, 31, 32, 33, 40])];
        }
        let mut numbers = flat(&off.tasks);
        if random.once_in(8) {
            numbers.truncate(random.between(0, numbers.len() as u64) as usize);
        }
        let (head, n) = ([off.cores, off.policy], numbers.len().div_ceil(5));
        let room = [n, 32, n + 1, 0, n.saturating_sub(1)][round % 5];
        for job in JOBS {
            list_call(other, job, head, &numbers, room)?;
        }
        let (bytes, start) = if random.once_in(2) { (2_000, 3) } else { buffers(round, n) };
        write_call(other, head, &numbers, bytes, start)?;
        calls += JOBS.len() as u64 + 1;
    }
    Ok(calls)
}

/// A part of everything, in seconds: for every change.
pub fn short(other: &impl Leveled, seed: u64) -> Compared {
    let mut calls = made(other)?;
    calls += small(other, 211)?;
    calls += drawn(other, seed, 1_500)?;
    calls += edges(other, seed, 24, 1_000)?;
    calls += damages(other, seed, 3_000)?;
    Ok(calls)
}

/// Everything, in some minutes.
pub fn everything(other: &impl Leveled, seed: u64) -> Compared {
    let mut calls = made(other)?;
    calls += small(other, 5)?;
    calls += drawn(other, seed, 30_000)?;
    calls += edges(other, seed, 300, 1_000)?;
    calls += edges(other, seed + 1, 60, 1_000_000)?;
    calls += damages(other, seed, 60_000)?;
    Ok(calls)
}
