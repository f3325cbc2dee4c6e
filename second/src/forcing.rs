//! Test and forcing of a legal table.

use crate::plan::{Refusal, Table};

/// How a bound is found: table, flags, task (from 0). The literal search and the textbook iteration fit.
pub type BoundOf = fn(&Table, &[u32], usize) -> Option<u32>;

#[derive(Clone, Copy, Debug, PartialEq, Eq)]
pub struct Record {
    pub flag: u32,
    pub forced: u32,
    /// 0 stands for "none".
    pub bound: u32,
}

#[derive(Clone, Debug, PartialEq, Eq)]
pub struct Forced {
    pub records: Vec<Record>,
    pub forced: u32,
    pub passes: u32,
}

/// The bounds of all tasks under these flags.
pub fn bounds(table: &Table, flags: &[u32], bound_of: BoundOf) -> Vec<Option<u32>> {
    (0..table.tasks.len()).map(|k| bound_of(table, flags, k)).collect()
}

/// Yes exactly if every task has a bound, and one record for each task.
pub fn test(table: &Table, bound_of: BoundOf) -> (bool, Vec<Record>) {
    let flags = table.flags();
    let found = bounds(table, &flags, bound_of);
    let yes = found.iter().all(|bound| bound.is_some());
    (yes, records(table, &flags, &found))
}

/// Tests, makes every preemptive task without a bound non-preemptive at once, and tests again, until a test
/// finds no preemptive task without a bound. Only then is it asked whether the table passes.
pub fn force(table: &Table, bound_of: BoundOf) -> Result<Forced, Refusal> {
    let mut flags = table.flags();
    let mut passes = 0;
    loop {
        let found = bounds(table, &flags, bound_of);
        passes += 1;
        let failing = failing_preemptive(&flags, &found);
        if failing.is_empty() {
            return end(table, &flags, &found, passes);
        }
        for k in failing {
            flags[k] = 0;
        }
    }
}

fn failing_preemptive(flags: &[u32], found: &[Option<u32>]) -> Vec<usize> {
    (0..flags.len()).filter(|&k| flags[k] == 1 && found[k].is_none()).collect()
}

/// The answer of the last test: 14 names the lowest-numbered task without a bound.
fn end(table: &Table, flags: &[u32], found: &[Option<u32>], passes: u32) -> Result<Forced, Refusal> {
    if let Some(k) = found.iter().position(|bound| bound.is_none()) {
        return Err(Refusal { number: 14, place: k as u32 + 1, passes });
    }
    let records = records(table, flags, found);
    let forced = records.iter().map(|record| record.forced).sum();
    Ok(Forced { records, forced, passes })
}

/// Final flag, forced mark 1 for each changed task, bound or 0.
fn records(table: &Table, flags: &[u32], found: &[Option<u32>]) -> Vec<Record> {
    let mut records = Vec::new();
    for (k, task) in table.tasks.iter().enumerate() {
        let forced = u32::from(flags[k] != task.flag);
        records.push(Record { flag: flags[k], forced, bound: found[k].unwrap_or(0) });
    }
    records
}
