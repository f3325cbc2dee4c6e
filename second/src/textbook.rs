//! The iteration of the paper's Theorem 1, as it would be written without further thought: start at the
//! first length, go on to c + B(l) until that is no more than l, and give up past the last length.
//!
//! It finds the same length as trying them all, since B never falls as l grows; the tests compare the two.
//! It is quick enough for large tables, and it is what the speed of the planner is measured against.

use crate::plan::{Table, Task, EDF};

/// One other task, with what does not change while l grows.
struct Other {
    period: u32,
    cost: u32,
    /// D - C, by which an interval is lengthened in W.
    shift: u32,
    /// What caps the term besides W and the length: E, or nothing (the largest number).
    cap: u32,
    /// Whether the term itself is added.
    adds: bool,
    /// Whether the task is a candidate for the m largest.
    blocks: bool,
}

impl Other {
    fn w(&self, l: u32) -> u32 {
        let x = l + self.shift;
        let n = x / self.period;
        n * self.cost + self.cost.min(x - n * self.period)
    }
}

fn e(k: &Task, i: &Task) -> u32 {
    k.deadline / i.period * i.cost + i.cost.min(k.deadline % i.period)
}

/// What the table of four sums says of task i, for task k.
fn other(table: &Table, flags: &[u32], k: usize, i: usize) -> Other {
    let (task, this) = (&table.tasks[i], &table.tasks[k]);
    let (preemptive_i, preemptive_k, edf) = (flags[i] == 1, flags[k] == 1, table.policy == EDF);
    let capped = edf && (preemptive_i || !preemptive_k);
    let lower = task.level > this.level;
    let adds = edf || !lower || (preemptive_k && !preemptive_i);
    let later = if edf { task.deadline > this.deadline } else { lower };
    Other {
        period: task.period,
        cost: task.cost,
        shift: task.deadline - task.cost,
        cap: if capped { e(this, task) } else { u32::MAX },
        adds,
        blocks: !preemptive_k && !preemptive_i && later,
    }
}

/// The whole sum at length l, the terms being capped by q.
fn sum(others: &[Other], l: u32, q: u32, m: usize, candidates: &mut Vec<u32>) -> u32 {
    candidates.clear();
    let mut total = 0;
    for i in others {
        let work = i.w(l).min(q);
        let term = if i.adds { work.min(i.cap) } else { 0 };
        total += term;
        if i.blocks {
            candidates.push(work.min(i.cost - 1).saturating_sub(term));
        }
    }
    candidates.sort_unstable_by(|a, b| b.cmp(a));
    total + candidates.iter().take(m).sum::<u32>()
}

/// The bound of task k under these flags, or none.
pub fn bound_of(table: &Table, flags: &[u32], k: usize) -> Option<u32> {
    let n = table.tasks.len();
    let others: Vec<Other> = (0..n).filter(|&i| i != k).map(|i| other(table, flags, k, i)).collect();
    let (c, d, m) = (table.tasks[k].cost, table.tasks[k].deadline, table.cores);
    // The first and last length, and by how much a length is longer than its q.
    let (first, last, less) = if flags[k] == 1 { (c, d, c - 1) } else { (1, d - c + 1, 0) };
    let mut candidates = Vec::with_capacity(n);
    let mut l = first;
    while l <= last {
        let next = first + sum(&others, l, l - less, m as usize, &mut candidates) / m;
        if next <= l {
            return Some(if flags[k] == 1 { l } else { l + c - 1 });
        }
        l = next;
    }
    None
}
