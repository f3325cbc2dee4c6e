//! The bound of a task, word for word as document 01 defines it: the lengths are tried one by one, the sums
//! are added as the table of four prints them, and the m largest are found by sorting. Slow, and meant to be.

use crate::plan::{Table, Task, EDF};

/// W_i(l): the work of task i in an interval of length l, at least 1.
pub fn w(i: &Task, l: u64) -> u64 {
    let (t, c, d) = (i.period as u64, i.cost as u64, i.deadline as u64);
    let n = (l + d - c) / t;
    n * c + c.min(l + d - c - n * t)
}

/// E(k,i): the work of jobs of task i whose deadlines are no later than that of a job of task k.
pub fn e(k: &Task, i: &Task) -> u64 {
    let (t, c, d) = (i.period as u64, i.cost as u64, k.deadline as u64);
    d / t * c + c.min(d % t)
}

/// The sum of the m largest; all are taken where there are fewer.
fn m_largest(mut candidates: Vec<i64>, m: usize) -> u64 {
    candidates.sort();
    candidates.reverse();
    candidates.iter().take(m).sum::<i64>() as u64
}

/// The tasks other than k, with their places.
fn others(table: &Table, k: usize) -> impl Iterator<Item = (usize, &Task)> {
    table.tasks.iter().enumerate().filter(move |(i, _)| *i != k)
}

/// Preemptive k under EDF.
fn sum_preemptive_edf(table: &Table, flags: &[u32], k: usize, l: u64) -> u64 {
    let q = l - table.tasks[k].cost as u64 + 1;
    let mut sum = 0;
    for (i, task) in others(table, k) {
        if flags[i] == 1 {
            sum += w(task, l).min(e(&table.tasks[k], task)).min(q);
        } else {
            sum += w(task, l).min(q);
        }
    }
    sum
}

/// Preemptive k under FP: i is higher than k if its level is smaller or equal, and lower if it is greater.
fn sum_preemptive_fp(table: &Table, flags: &[u32], k: usize, l: u64) -> u64 {
    let q = l - table.tasks[k].cost as u64 + 1;
    let mut sum = 0;
    for (i, task) in others(table, k) {
        let higher = task.level <= table.tasks[k].level;
        let lower_non_preemptive = task.level > table.tasks[k].level && flags[i] == 0;
        if higher || lower_non_preemptive {
            sum += w(task, l).min(q);
        }
    }
    sum
}

/// Non-preemptive k under EDF.
fn sum_non_preemptive_edf(table: &Table, flags: &[u32], k: usize, l: u64) -> u64 {
    let d_k = table.tasks[k].deadline;
    let mut sum = 0;
    let mut candidates = Vec::new();
    for (i, task) in others(table, k) {
        let urgent = w(task, l).min(e(&table.tasks[k], task)).min(l);
        sum += urgent;
        if flags[i] == 0 && task.deadline > d_k {
            let blocking = w(task, l).min(task.cost as u64 - 1).min(l);
            candidates.push(0.max(blocking as i64 - urgent as i64));
        }
    }
    sum + m_largest(candidates, table.cores as usize)
}

/// Non-preemptive k under FP.
fn sum_non_preemptive_fp(table: &Table, flags: &[u32], k: usize, l: u64) -> u64 {
    let mut sum = 0;
    let mut candidates = Vec::new();
    for (i, task) in others(table, k) {
        if task.level <= table.tasks[k].level {
            sum += w(task, l).min(l);
        }
        if task.level > table.tasks[k].level && flags[i] == 0 {
            candidates.push(w(task, l).min(task.cost as u64 - 1).min(l) as i64);
        }
    }
    sum + m_largest(candidates, table.cores as usize)
}

/// B(l) of task k: only the whole sum is divided by m, and then rounded down.
pub fn b(table: &Table, flags: &[u32], k: usize, l: u64) -> u64 {
    let sum = match (flags[k], table.policy) {
        (1, EDF) => sum_preemptive_edf(table, flags, k, l),
        (1, _) => sum_preemptive_fp(table, flags, k, l),
        (_, EDF) => sum_non_preemptive_edf(table, flags, k, l),
        (_, _) => sum_non_preemptive_fp(table, flags, k, l),
    };
    sum / table.cores as u64
}

/// The bound of task k under these flags, or none. The first length that satisfies its line counts.
pub fn bound_of(table: &Table, flags: &[u32], k: usize) -> Option<u32> {
    let (c, d) = (table.tasks[k].cost as u64, table.tasks[k].deadline as u64);
    if flags[k] == 1 {
        let l = (c..=d).find(|&l| c + b(table, flags, k, l) <= l)?;
        Some(l as u32)
    } else {
        let l = (1..=d - c + 1).find(|&l| 1 + b(table, flags, k, l) <= l)?;
        Some((l + c - 1) as u32)
    }
}
