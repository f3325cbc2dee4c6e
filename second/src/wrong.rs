//! Wrong planners, each with one slip. The plan cases must hold a table on which each of them answers
//! otherwise than it should; a set of cases that a wrong planner survives shows nothing about that slip.

use crate::forcing::{Forced, Record};
use crate::listing::refusal_line;
use crate::plan::{read, Refusal, Table, Task, EDF};
use crate::slips::Slip;
use crate::wrong_bound::Search;

// ---------------------------------------------------------------- forcing with a slip

/// The flags that task k is tested under.
fn flags_for(slip: Slip, table: &Table, flags: &[u32], k: usize) -> Vec<u32> {
    let mut seen = if slip == Slip::OthersAsSent { table.flags() } else { flags.to_vec() };
    seen[k] = flags[k];
    seen
}

fn bounds(slip: Slip, table: &Table, flags: &[u32], old: &[Option<u32>]) -> Vec<Option<u32>> {
    let mut found = Vec::new();
    for (k, &before) in old.iter().enumerate() {
        let kept = if slip == Slip::OldBoundsKept { before } else { None };
        let seen = flags_for(slip, table, flags, k);
        found.push(kept.or_else(|| Search { slip, table, flags: &seen, k }.bound()));
    }
    found
}

/// The preemptive tasks that are made non-preemptive after this test.
fn to_force(slip: Slip, flags: &[u32], found: &[Option<u32>], passes: u32) -> Vec<usize> {
    let preemptive: Vec<usize> = (0..flags.len()).filter(|&k| flags[k] == 1).collect();
    let failing: Vec<usize> = preemptive.iter().copied().filter(|&k| found[k].is_none()).collect();
    let fails = found.contains(&None);
    match slip {
        Slip::AllAtFirstFailure if fails => preemptive,
        Slip::EndsAtNonPreemptive if (0..flags.len()).any(|k| flags[k] == 0 && found[k].is_none()) => vec![],
        Slip::OneAtATime => failing.into_iter().take(1).collect(),
        Slip::OneAtATimeFromTheEnd => failing.into_iter().rev().take(1).collect(),
        Slip::StepFourteen if fails && failing.is_empty() => preemptive.into_iter().take(1).collect(),
        Slip::TwoTestsOnly if passes == 2 => vec![],
        _ => failing,
    }
}

fn place(slip: Slip, first: &[Option<u32>], last: &[Option<u32>]) -> u32 {
    let from = if slip == Slip::PlaceOfFirstTest { first } else { last };
    let at = match slip {
        Slip::HighestPlace => from.iter().rposition(|bound| bound.is_none()),
        _ => from.iter().position(|bound| bound.is_none()),
    };
    at.map_or(0, |k| k as u32 + 1)
}

/// Forcing with one slip.
pub fn force(slip: Slip, table: &Table) -> Result<Forced, Refusal> {
    let mut flags = table.flags();
    if slip == Slip::GivenFlagsForgotten {
        flags.fill(1);
    }
    let mut found = vec![None; flags.len()];
    let mut first = None;
    let mut passes = 0;
    loop {
        found = bounds(slip, table, &flags, &found);
        passes += 1;
        let first = first.get_or_insert(found.clone());
        let forced = to_force(slip, &flags, &found, passes);
        if forced.is_empty() {
            return end(slip, table, &flags, &found, place(slip, first, &found), passes);
        }
        for k in forced {
            flags[k] = 0;
        }
    }
}

fn end(
    slip: Slip,
    table: &Table,
    flags: &[u32],
    found: &[Option<u32>],
    place: u32,
    passes: u32,
) -> Result<Forced, Refusal> {
    let mut records = Vec::new();
    for (k, task) in table.tasks.iter().enumerate() {
        let changed = flags[k] == 0 && (task.flag == 1 || slip == Slip::EveryNonPreemptiveMarked);
        let flag = if slip == Slip::FlagsAsSentShown { task.flag } else { flags[k] };
        records.push(Record { flag, forced: u32::from(changed), bound: found[k].unwrap_or(0) });
    }
    let forced = records.iter().map(|record| record.forced).sum();
    let passes = match slip {
        Slip::LastPassUncounted => passes - 1,
        Slip::PassesAreForcedCount => forced + 1,
        _ => passes,
    };
    if found.contains(&None) {
        return Err(Refusal { number: 14, place, passes });
    }
    Ok(Forced { records, forced, passes })
}

// ---------------------------------------------------------------- the listing with a slip

fn load(slip: Slip, task: &Task) -> u32 {
    match slip {
        Slip::LoadRoundedDown => 1000 * task.cost / task.period,
        Slip::LoadOneMore => 1000 * task.cost / task.period + 1,
        Slip::LoadOfDeadline => (1000 * task.cost).div_ceil(task.deadline),
        _ => (1000 * task.cost).div_ceil(task.period),
    }
}

/// The total load; the exact sum is kept as a fraction of 2^40, which is fine enough to tell it apart.
fn total(slip: Slip, table: &Table) -> u32 {
    if slip == Slip::TotalOfExactLoads {
        let part = |task: &Task| ((1000 * task.cost as u128) << 40) / task.period as u128;
        return table.tasks.iter().map(part).sum::<u128>().div_ceil(1 << 40) as u32;
    }
    table.tasks.iter().map(|task| load(slip, task)).sum()
}

/// What the wrong plan printer writes.
pub fn listing(slip: Slip, text: &[u8]) -> String {
    match read(text) {
        Ok(table) => listing_of_table(slip, &table),
        Err(refusal) => refusal_line(&refusal),
    }
}

pub fn listing_of_table(slip: Slip, table: &Table) -> String {
    let answer = match force(slip, table) {
        Ok(answer) => answer,
        Err(refusal) => return refusal_line(&refusal),
    };
    let policy = if table.policy == EDF { "EDF" } else { "FP" };
    let mut text = format!("plan {policy} cores {} tasks {}\n", table.cores, table.tasks.len());
    for (k, (task, record)) in table.tasks.iter().zip(&answer.records).enumerate() {
        let flag = if record.flag == 1 { "P" } else { "N" };
        let mark = if record.forced == 1 { "forced" } else { "given" };
        text += &format!("task {} {flag} {mark} bound {}", k + 1, record.bound);
        text += &format!(" deadline {} load {}\n", task.deadline, load(slip, task));
    }
    let total = total(slip, table);
    text + &format!("total load {total} forced {} passes {}\n", answer.forced, answer.passes)
}
