//! The bound of a task with one slip of a wrong planner.

use crate::plan::{Table, Task, EDF};
use crate::slips::Slip;

/// One search: the slip, the table with its flags, and task k.
pub struct Search<'a> {
    pub slip: Slip,
    pub table: &'a Table,
    pub flags: &'a [u32],
    pub k: usize,
}

impl Search<'_> {
    fn is(&self, slip: Slip) -> bool {
        self.slip == slip
    }

    fn w(&self, i: &Task, l: u64) -> u64 {
        let (t, c, d) = (i.period as u64, i.cost as u64, i.deadline as u64);
        let x = match self.slip {
            Slip::WorkWithPeriod => l + t - c,
            Slip::WorkWithoutShift => l,
            _ => l + d - c,
        };
        let n = x / t;
        match self.slip {
            Slip::WorkWithoutTail => n * c,
            Slip::WorkTailUncapped => n * c + c,
            _ => n * c + c.min(x - n * t),
        }
    }

    fn e(&self, i: &Task) -> u64 {
        let own = if self.is(Slip::CapWithOwnDeadline) { i } else { &self.table.tasks[self.k] };
        let (t, c, d) = (i.period as u64, i.cost as u64, own.deadline as u64);
        match self.slip {
            Slip::CapWithoutTail => d / t * c,
            Slip::CapTailWhole => d.div_ceil(t) * c,
            _ => d / t * c + c.min(d % t),
        }
    }

    fn higher(&self, i: usize) -> bool {
        let tasks = &self.table.tasks;
        match self.slip {
            Slip::FpLaterIsHigher => i > self.k,
            Slip::FpPriorityByDeadline => (tasks[i].deadline, i) < (tasks[self.k].deadline, self.k),
            _ => i != self.k && tasks[i].level <= tasks[self.k].level,
        }
    }

    /// The terms of a preemptive k.
    fn preemptive(&self, l: u64) -> Vec<u64> {
        let (edf, c) = (self.table.policy == EDF, self.table.tasks[self.k].cost as u64);
        let q = match self.slip {
            Slip::CapByLength => l,
            Slip::CapOneShort => l - c,
            Slip::PreemptiveFromOne => l,
            _ => l - c + 1,
        };
        let mut terms = Vec::new();
        for i in self.others() {
            let (task, preemptive) = (&self.table.tasks[i], self.flags[i] == 1);
            let capped = edf && self.preemptive_capped(preemptive);
            let cap = if capped { self.e(task) } else { u64::MAX };
            if edf || self.fp_adds(i, preemptive) {
                terms.push(self.w(task, l).min(cap).min(q));
            }
        }
        terms
    }

    fn preemptive_capped(&self, preemptive: bool) -> bool {
        match self.slip {
            Slip::EdfPreemptiveCapsAll => true,
            Slip::EdfPreemptiveCapsNone => false,
            _ => preemptive,
        }
    }

    fn fp_adds(&self, i: usize, preemptive: bool) -> bool {
        let lower = match self.slip {
            Slip::FpLowerPreemptiveAdded => true,
            Slip::FpLowerNonPreemptiveLeftOut => false,
            _ => !preemptive,
        };
        self.higher(i) || lower
    }

    fn others(&self) -> impl Iterator<Item = usize> + '_ {
        let own = self.is(Slip::OwnWorkAdded);
        (0..self.table.tasks.len()).filter(move |&i| own || i != self.k)
    }

    /// The terms of a non-preemptive k under EDF.
    fn non_preemptive_edf(&self, l: u64) -> Vec<u64> {
        let this = &self.table.tasks[self.k];
        let (mut terms, mut candidates) = (Vec::new(), Vec::new());
        for i in self.others() {
            let task = &self.table.tasks[i];
            let cap = if self.is(Slip::EdfNonPreemptiveWithoutCap) { u64::MAX } else { self.e(task) };
            let urgent = self.w(task, l).min(cap).min(l);
            terms.push(urgent);
            let ties = self.is(Slip::EdfTiesAlsoBlock) || self.is(Slip::EdfBlockingNotLessenedTies);
            let later = task.deadline > this.deadline || (ties && task.deadline == this.deadline);
            if self.flags[i] == 0 && later && i != self.k {
                candidates.push(self.edf_blocking(task, l, urgent));
            }
        }
        terms.extend(self.largest(candidates));
        terms
    }

    fn edf_blocking(&self, i: &Task, l: u64, urgent: u64) -> u64 {
        let c = i.cost as u64;
        let work = self.w(i, l).min(l);
        match self.slip {
            Slip::EquationSixAsPrinted => work,
            Slip::EdfBlockingNotLessened | Slip::EdfBlockingNotLessenedTies => work.min(c - 1),
            Slip::EdfBlockingWholeCost => work.min(c).saturating_sub(urgent),
            Slip::EdfDifferencesLeftOut => 0,
            _ => work.min(c - 1).saturating_sub(urgent),
        }
    }

    /// The terms of a non-preemptive k under FP.
    fn non_preemptive_fp(&self, l: u64) -> Vec<u64> {
        let (mut terms, mut candidates) = (Vec::new(), Vec::new());
        for i in self.others() {
            let task = &self.table.tasks[i];
            if self.higher(i) || i == self.k {
                terms.push(self.w(task, l).min(l));
            } else if self.flags[i] == 0 || self.is(Slip::BlockingByPreemptive) {
                candidates.push(self.fp_blocking(task, l));
            }
        }
        terms.extend(self.largest(candidates));
        terms
    }

    fn fp_blocking(&self, i: &Task, l: u64) -> u64 {
        let c = i.cost as u64;
        match self.slip {
            Slip::BlockingWholeCost => self.w(i, l).min(c).min(l),
            Slip::BlockingUncapped => self.w(i, l).min(l),
            Slip::BlockingWithoutWork => l.min(c - 1),
            Slip::BlockingLeftOut => 0,
            _ => self.w(i, l).min(c - 1).min(l),
        }
    }

    /// The candidates that are taken.
    fn largest(&self, mut candidates: Vec<u64>) -> Vec<u64> {
        let (m, all, edf) = (self.table.cores as usize, candidates.len(), self.table.policy == EDF);
        if !self.is(Slip::FirstCandidates) {
            candidates.sort_by(|a, b| b.cmp(a));
        }
        if self.is(Slip::SmallestCandidates) {
            candidates.reverse();
        }
        let taken = match self.slip {
            Slip::AllCandidates => all,
            Slip::EdfAllCandidates if edf => all,
            Slip::OneCandidate => 1,
            Slip::OneCandidateMore => m + 1,
            Slip::OneCandidateLess => m - 1,
            _ => m,
        };
        candidates.truncate(taken);
        candidates
    }

    fn b(&self, l: u64) -> u64 {
        let m = self.table.cores as u64;
        let terms = match (self.flags[self.k], self.table.policy) {
            (1, _) => self.preemptive(l),
            (_, EDF) => self.non_preemptive_edf(l),
            _ => self.non_preemptive_fp(l),
        };
        match self.slip {
            Slip::SharesRoundedFirst => terms.iter().map(|term| term / m).sum(),
            Slip::WholeSumRoundedUp => terms.iter().sum::<u64>().div_ceil(m),
            _ => terms.iter().sum::<u64>() / m,
        }
    }

    /// First and last length, and what is added to a length to make the bound.
    fn range(&self) -> (u64, u64, u64) {
        let task = &self.table.tasks[self.k];
        let (c, d) = (task.cost as u64, task.deadline as u64);
        if self.flags[self.k] == 1 && !self.is(Slip::PreemptiveFromOne) {
            return (c, if self.is(Slip::LastLengthMissed) { d - 1 } else { d }, 0);
        }
        match self.slip {
            Slip::LastLengthMissed => (1, d - c, c - 1),
            Slip::NonPreemptiveToDeadline => (1, d, c - 1),
            Slip::NonPreemptiveBoundIsStart => (1, d - c + 1, 0),
            Slip::NonPreemptiveBoundOneMore => (1, d - c + 1, c),
            Slip::NonPreemptiveFromCost => (c, d, 0),
            _ => (1, d - c + 1, c - 1),
        }
    }

    /// The iteration; with a slip it need not be the smallest length that is found.
    pub fn bound(&self) -> Option<u32> {
        let (first, last, more) = self.range();
        let strict = u64::from(self.is(Slip::StrictlyBelow));
        let mut l = first;
        while l <= last {
            let next = first + self.b(l) + strict;
            if next <= l {
                return Some((l + more) as u32);
            }
            l = next;
        }
        None
    }
}
