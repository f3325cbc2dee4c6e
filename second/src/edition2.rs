//! The second edition of the test, as document 02's Wish 4 words it: rounds under slacks, test and forcing.
//! All rounds are worked out plainly, from the first to the last; nothing is kept from one test to the next.

use crate::forcing::{Forced, Record};
use crate::listing::{accepted, refusal_line};
use crate::plan::{read, Refusal, Table};
use crate::{edition2_bound, edition2_textbook};

/// How a bound is found: table, flags, slacks at the start of the round, task (from 0).
pub type BoundOf = fn(&Table, &[u32], &[u32], usize) -> Option<u32>;

/// Up to this deadline every length is tried.
const SMALL_DEADLINE: u32 = 200;

/// The search over every length where D is small, the textbook iteration by leaps elsewhere.
pub fn bound_of(table: &Table, flags: &[u32], slacks: &[u32], k: usize) -> Option<u32> {
    if table.tasks[k].deadline <= SMALL_DEADLINE {
        edition2_bound::bound_of(table, flags, slacks, k)
    } else {
        edition2_textbook::bound_by_leaps(table, flags, slacks, k)
    }
}

// ---------------------------------------------------------------- rounds

/// A round works out all bounds from the slacks at its start.
pub fn round(table: &Table, flags: &[u32], slacks: &[u32], bound_of: BoundOf) -> Vec<Option<u32>> {
    (0..table.tasks.len()).map(|k| bound_of(table, flags, slacks, k)).collect()
}

/// A task with a bound then gets S = D - bound, one without keeps its S.
pub fn slacks_after(table: &Table, slacks: &[u32], bounds: &[Option<u32>]) -> Vec<u32> {
    let mut next = Vec::new();
    for (k, task) in table.tasks.iter().enumerate() {
        next.push(match bounds[k] {
            Some(bound) => task.deadline - bound,
            None => slacks[k],
        });
    }
    next
}

/// One test of the whole table: the slacks at the start of its last round, the bounds of that round, and how
/// many rounds there were, the last included.
#[derive(Clone, Debug, PartialEq, Eq)]
pub struct Tested {
    pub slacks: Vec<u32>,
    pub bounds: Vec<Option<u32>>,
    pub rounds: u32,
}

impl Tested {
    pub fn passes(&self) -> bool {
        self.bounds.iter().all(|bound| bound.is_some())
    }
}

/// Slacks are 0 at the start, and rounds go on until no slack changes. The last round's bounds count.
pub fn tested(table: &Table, flags: &[u32], bound_of: BoundOf) -> Tested {
    let mut slacks = vec![0; table.tasks.len()];
    let mut rounds = 0;
    loop {
        let bounds = round(table, flags, &slacks, bound_of);
        rounds += 1;
        let next = slacks_after(table, &slacks, &bounds);
        if next == slacks {
            return Tested { slacks, bounds, rounds };
        }
        slacks = next;
    }
}

// ---------------------------------------------------------------- test and forcing

/// The answer of the test: a no is not a refusal, and has its records and rounds too.
#[derive(Clone, Debug, PartialEq, Eq)]
pub struct Answer {
    pub yes: bool,
    pub records: Vec<Record>,
    pub rounds: u32,
}

/// The answer of an accepted forcing. The rounds are those of the last test.
#[derive(Clone, Debug, PartialEq, Eq)]
pub struct Accepted {
    pub records: Vec<Record>,
    pub forced: u32,
    pub passes: u32,
    pub rounds: u32,
}

/// Flag, forced mark 1 for each changed task, bound or 0.
fn records(table: &Table, flags: &[u32], bounds: &[Option<u32>]) -> Vec<Record> {
    let mut records = Vec::new();
    for (k, task) in table.tasks.iter().enumerate() {
        let forced = u32::from(flags[k] != task.flag);
        records.push(Record { flag: flags[k], forced, bound: bounds[k].unwrap_or(0) });
    }
    records
}

/// Yes exactly if every task has a bound.
pub fn test(table: &Table, bound_of: BoundOf) -> Answer {
    let flags = table.flags();
    let last = tested(table, &flags, bound_of);
    Answer { yes: last.passes(), records: records(table, &flags, &last.bounds), rounds: last.rounds }
}

/// The tasks to be forced when a test fails: the preemptive ones without a bound; if there are none, the
/// lowest-numbered preemptive one; and none at all when all tasks are non-preemptive.
pub fn to_be_forced(flags: &[u32], bounds: &[Option<u32>]) -> Vec<usize> {
    let preemptive: Vec<usize> = (0..flags.len()).filter(|&k| flags[k] == 1).collect();
    let without: Vec<usize> = preemptive.iter().copied().filter(|&k| bounds[k].is_none()).collect();
    if without.is_empty() {
        preemptive.into_iter().take(1).collect()
    } else {
        without
    }
}

/// Tests, forces, and tests again, with the slacks at 0 after each change of flags, until a test passes or
/// all tasks are non-preemptive. Refusal 15 names the lowest-numbered task without a bound.
pub fn force(table: &Table, bound_of: BoundOf) -> Result<Accepted, Refusal> {
    let mut flags = table.flags();
    let mut passes = 0;
    loop {
        let last = tested(table, &flags, bound_of);
        passes += 1;
        if last.passes() {
            let records = records(table, &flags, &last.bounds);
            let forced = records.iter().map(|record| record.forced).sum();
            return Ok(Accepted { records, forced, passes, rounds: last.rounds });
        }
        let next = to_be_forced(&flags, &last.bounds);
        if next.is_empty() {
            let lowest = last.bounds.iter().position(|bound| bound.is_none()).unwrap();
            return Err(Refusal { number: 15, place: lowest as u32 + 1, passes });
        }
        for k in next {
            flags[k] = 0;
        }
    }
}

// ---------------------------------------------------------------- the listing

/// What the plan printer writes for a text under edition 2: the last line gains the rounds.
pub fn listing(text: &[u8], bound_of: BoundOf) -> String {
    match read(text).and_then(|table| Ok((force(&table, bound_of)?, table))) {
        Ok((answer, table)) => accepted_listing(&table, answer),
        Err(refusal) => refusal_line(&refusal),
    }
}

fn accepted_listing(table: &Table, answer: Accepted) -> String {
    let Accepted { records, forced, passes, rounds } = answer;
    let lines = accepted(table, &Forced { records, forced, passes });
    format!("{} rounds {rounds}\n", lines.trim_end_matches('\n'))
}
