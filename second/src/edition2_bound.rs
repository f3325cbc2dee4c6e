//! The bound of a task under slacks, word for word: document 01's lines, with W and E as document 02's Wish 4
//! changes them. The lengths are tried one by one and the m largest are found by sorting: slow, as is meant.

use crate::plan::{Table, Task, EDF};

/// W_i(l), with D_i - S_i - C_i for D_i - C_i in both places.
pub fn w(i: &Task, s_i: u32, l: i64) -> i64 {
    let (t, c, d, s) = (i.period as i64, i.cost as i64, i.deadline as i64, s_i as i64);
    let n = (l + d - s - c) / t;
    n * c + c.min(l + d - s - c - n * t)
}

/// E(k,i), with max(0, D_k mod T_i - S_i) for D_k mod T_i.
pub fn e(k: &Task, i: &Task, s_i: u32) -> i64 {
    let (t, c, d, s) = (i.period as i64, i.cost as i64, k.deadline as i64, s_i as i64);
    d / t * c + c.min(0.max(d % t - s))
}

/// The sum of the m largest; all are taken where there are fewer.
fn m_largest(mut candidates: Vec<i64>, m: u32) -> i64 {
    candidates.sort();
    candidates.iter().rev().take(m as usize).sum()
}

/// A table with its flags, and the slacks at the start of a round.
struct Round<'a> {
    table: &'a Table,
    flags: &'a [u32],
    slacks: &'a [u32],
}

impl Round<'_> {
    fn w(&self, i: usize, l: i64) -> i64 {
        w(&self.table.tasks[i], self.slacks[i], l)
    }

    fn e(&self, k: usize, i: usize) -> i64 {
        e(&self.table.tasks[k], &self.table.tasks[i], self.slacks[i])
    }

    fn cost(&self, i: usize) -> i64 {
        self.table.tasks[i].cost as i64
    }

    fn preemptive(&self, i: usize) -> bool {
        self.flags[i] == 1
    }

    /// Under FP i counts as higher than k if its level is smaller or equal, and else as lower.
    fn higher(&self, k: usize, i: usize) -> bool {
        self.table.tasks[i].level <= self.table.tasks[k].level
    }

    /// The tasks other than k.
    fn others(&self, k: usize) -> impl Iterator<Item = usize> {
        (0..self.table.tasks.len()).filter(move |&i| i != k)
    }

    /// Preemptive k under EDF, q = l - C_k + 1.
    fn sum_preemptive_edf(&self, k: usize, l: i64) -> i64 {
        let q = l - self.cost(k) + 1;
        let mut sum = 0;
        for i in self.others(k) {
            let capped = if self.preemptive(i) { self.w(i, l).min(self.e(k, i)) } else { self.w(i, l) };
            sum += capped.min(q);
        }
        sum
    }

    /// Preemptive k under FP, same q: each higher i and each lower non-preemptive i.
    fn sum_preemptive_fp(&self, k: usize, l: i64) -> i64 {
        let q = l - self.cost(k) + 1;
        let counts = |i: &usize| self.higher(k, *i) || !self.preemptive(*i);
        self.others(k).filter(counts).map(|i| self.w(i, l).min(q)).sum()
    }

    /// Non-preemptive k under EDF: each i, and the m largest differences.
    fn sum_non_preemptive_edf(&self, k: usize, l: i64) -> i64 {
        let sum: i64 = self.others(k).map(|i| self.w(i, l).min(self.e(k, i)).min(l)).sum();
        sum + m_largest(self.differences(k, l), self.table.cores)
    }

    /// max(0, min(W_i, C_i - 1, l) - min(W_i, E(k,i), l)) over non-preemptive i with D_i > D_k.
    fn differences(&self, k: usize, l: i64) -> Vec<i64> {
        let tasks = &self.table.tasks;
        let later = |i: &usize| !self.preemptive(*i) && tasks[*i].deadline > tasks[k].deadline;
        let mut candidates = Vec::new();
        for i in self.others(k).filter(later) {
            let blocking = self.w(i, l).min(self.cost(i) - 1).min(l);
            candidates.push(0.max(blocking - self.w(i, l).min(self.e(k, i)).min(l)));
        }
        candidates
    }

    /// Non-preemptive k under FP: each higher i, and the m largest over lower non-preemptive i.
    fn sum_non_preemptive_fp(&self, k: usize, l: i64) -> i64 {
        let mut sum = 0;
        let mut candidates = Vec::new();
        for i in self.others(k) {
            if self.higher(k, i) {
                sum += self.w(i, l).min(l);
            } else if !self.preemptive(i) {
                candidates.push(self.w(i, l).min(self.cost(i) - 1).min(l));
            }
        }
        sum + m_largest(candidates, self.table.cores)
    }

    /// B(l) of task k: only the whole sum is divided by m, and then rounded down.
    fn b(&self, k: usize, l: i64) -> i64 {
        let sum = match (self.preemptive(k), self.table.policy) {
            (true, EDF) => self.sum_preemptive_edf(k, l),
            (true, _) => self.sum_preemptive_fp(k, l),
            (false, EDF) => self.sum_non_preemptive_edf(k, l),
            (false, _) => self.sum_non_preemptive_fp(k, l),
        };
        sum / self.table.cores as i64
    }
}

/// The bound of task k under these flags and slacks, or none: the first length that satisfies its line.
pub fn bound_of(table: &Table, flags: &[u32], slacks: &[u32], k: usize) -> Option<u32> {
    let round = Round { table, flags, slacks };
    let (c, d) = (round.cost(k), table.tasks[k].deadline as i64);
    if flags[k] == 1 {
        let l = (c..=d).find(|&l| c + round.b(k, l) <= l)?;
        Some(l as u32)
    } else {
        let l = (1..=d - c + 1).find(|&l| 1 + round.b(k, l) <= l)?;
        Some((l + c - 1) as u32)
    }
}

/// The largest difference of a non-preemptive k under EDF at any of its lengths; 0 for all other k.
pub fn largest_difference(table: &Table, flags: &[u32], slacks: &[u32], k: usize) -> i64 {
    if flags[k] == 1 || table.policy != EDF {
        return 0;
    }
    let round = Round { table, flags, slacks };
    let last = table.tasks[k].deadline as i64 - round.cost(k) + 1;
    (1..=last).flat_map(|l| round.differences(k, l)).max().unwrap_or(0)
}
