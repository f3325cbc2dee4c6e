//! The iteration of the paper's Theorem 1 under slacks: start at the first length, go on to the first length
//! plus B(l) until that is no more than l, and give up past the last length. Beside it stands a search by
//! leaps, for long deadlines with many rounds; the tests compare both with the search over every length.

use crate::plan::{Table, EDF};

/// What one other task adds, with all that does not change while l grows.
#[derive(Clone, Copy)]
struct Term {
    period: u32,
    cost: u32,
    /// D - S - C.
    shift: u32,
    /// E, or the largest number where E does not cap.
    cap: u32,
    /// Whether min(W, E, ..) is added.
    adds: bool,
    /// Whether min(W, C - 1, l), or what it has above the added term, is a candidate for the m largest.
    blocks: bool,
}

impl Term {
    fn new(table: &Table, flags: &[u32], slacks: &[u32], k: usize, i: usize) -> Term {
        let (this, task, slack) = (&table.tasks[k], &table.tasks[i], slacks[i]);
        let (edf, k_preemptive, i_preemptive) = (table.policy == EDF, flags[k] == 1, flags[i] == 1);
        let rest = (this.deadline % task.period).saturating_sub(slack);
        let e = this.deadline / task.period * task.cost + task.cost.min(rest);
        let capped = edf && (i_preemptive || !k_preemptive);
        let lower = task.level > this.level;
        let later = if edf { task.deadline > this.deadline } else { lower };
        Term {
            period: task.period,
            cost: task.cost,
            shift: task.deadline - slack - task.cost,
            cap: if capped { e } else { u32::MAX },
            adds: edf || !lower || (k_preemptive && !i_preemptive),
            blocks: !k_preemptive && !i_preemptive && later,
        }
    }

    /// What is added and what blocks at length l, before either is capped by q: min(W, E), and
    /// min(W, C - 1) where that is more.
    fn at(&self, l: u32) -> (u32, u32) {
        let x = l + self.shift;
        let whole = x / self.period;
        let work = whole * self.cost + self.cost.min(x - whole * self.period);
        let added = if self.adds { work.min(self.cap) } else { 0 };
        (added, if self.blocks { added.max(work.min(self.cost - 1)) } else { added })
    }
}

/// The whole sum of these pairs, capped by q: what is added, and the m largest of what blocking has above it.
fn sum(pairs: &[(u32, u32)], q: u32, m: u32) -> u32 {
    let mut total = 0;
    let mut above = [0; 32];
    let mut count = 0;
    for &(added, blocking) in pairs {
        total += added.min(q);
        if blocking > added {
            above[count] = blocking.min(q) - added.min(q);
            count += 1;
        }
    }
    above[..count].sort_unstable_by(|a, b| b.cmp(a));
    total + above[..count].iter().take(m as usize).sum::<u32>()
}

/// One search: the terms, the first and the last length, what a length has above its q, and what a bound has
/// above its length.
struct Search {
    terms: Vec<Term>,
    m: u32,
    first: u32,
    last: u32,
    less: u32,
    more: u32,
}

impl Search {
    fn new(table: &Table, flags: &[u32], slacks: &[u32], k: usize) -> Search {
        let others = (0..table.tasks.len()).filter(|&i| i != k);
        let terms = others.map(|i| Term::new(table, flags, slacks, k, i)).collect();
        let (c, d, m) = (table.tasks[k].cost, table.tasks[k].deadline, table.cores);
        if flags[k] == 1 {
            Search { terms, m, first: c, last: d, less: c - 1, more: 0 }
        } else {
            Search { terms, m, first: 1, last: d - c + 1, less: 0, more: c - 1 }
        }
    }

    fn pairs(&self, l: u32) -> Vec<(u32, u32)> {
        self.terms.iter().map(|term| term.at(l)).collect()
    }

    /// The first length plus B(l), the pairs being those of this length or of a shorter one.
    fn next(&self, pairs: &[(u32, u32)], l: u32) -> u32 {
        self.first + sum(pairs, l - self.less, self.m) / self.m
    }

    /// The least length from l on that the pairs of l allow, or one past the last. With fixed pairs every
    /// longer length is allowed too: each choice of the m largest is a sum of min(a, q), which is concave in
    /// q and 0 at q = 0, so that it stays below m * q once it is. So the length is found by halving.
    fn leap(&self, pairs: &[(u32, u32)], l: u32) -> u32 {
        let (mut low, mut high) = (l, self.last + 1);
        while low < high {
            let middle = (low + high) / 2;
            if self.next(pairs, middle) <= middle {
                high = middle;
            } else {
                low = middle + 1;
            }
        }
        low
    }
}

/// The bound of task k under these flags and slacks, or none.
pub fn bound_of(table: &Table, flags: &[u32], slacks: &[u32], k: usize) -> Option<u32> {
    let search = Search::new(table, flags, slacks, k);
    let mut l = search.first;
    while l <= search.last {
        let next = search.next(&search.pairs(l), l);
        if next <= l {
            return Some(l + search.more);
        }
        l = next;
    }
    None
}

/// The same by leaps: as long as W stays what it is at l, no length before the leap's end can do, and W never
/// falls. The iteration goes on by one where a cap by q decides; this does not.
pub fn bound_by_leaps(table: &Table, flags: &[u32], slacks: &[u32], k: usize) -> Option<u32> {
    let search = Search::new(table, flags, slacks, k);
    let mut l = search.first;
    while l <= search.last {
        let pairs = search.pairs(l);
        if search.next(&pairs, l) <= l {
            return Some(l + search.more);
        }
        l = search.leap(&pairs, l + 1);
    }
    None
}
