//! A table in rows: what the searches need of each task, by its place, made once a table and lent from there.

use super::checks::{head_fault, task_fault};
use super::{fault, Fault};

/// How many places a row has.
pub const PLACES: usize = second::plan::MOST_TASKS;

pub type Row = [u32; PLACES];

/// A window times this number, without its lowest 42 bits, is the window divided by the period: for windows
/// x with x T < 2^42, and no window is longer than two periods of 1,000,000.
const SCALE: u32 = 42;

pub struct Rows {
    pub cores: u32,
    pub policy: u32,
    pub n: usize,
    /// 2^42 / T + 1, in place of a division by T.
    pub inverse: [u64; PLACES],
    /// T - C, for how long a task pauses between jobs that follow each other closely.
    pub rest: Row,
    pub cost: Row,
    /// D - C, by which a window is longer for this task.
    pub reach: Row,
    /// The flags as given: 1 for preemptive.
    pub given: Row,
}

impl Rows {
    pub fn new() -> Rows {
        let none = [0; PLACES];
        Rows {
            cores: 0,
            policy: 0,
            n: 0,
            inverse: [0; PLACES],
            rest: none,
            cost: none,
            reach: none,
            given: none,
        }
    }

    pub fn put(&mut self, i: usize, flag: u32, period: u32, cost: u32, deadline: u32) {
        self.inverse[i] = (1u64 << SCALE) / u64::from(period) + 1;
        self.rest[i] = period - cost;
        self.cost[i] = cost;
        self.reach[i] = deadline - cost;
        self.given[i] = flag;
    }

    /// Fills the rows from a flat table: 0, or the first fault.
    pub fn fill(&mut self, cores: u32, policy: u32, tasks: &[u32]) -> Fault {
        let n = tasks.len().div_ceil(4);
        let wrong = head_fault(cores, policy, n);
        if wrong != 0 {
            return fault(wrong, 0);
        }
        (self.cores, self.policy, self.n) = (cores, policy, n);
        for (i, task) in tasks.chunks(4).enumerate() {
            // Numbers that are missing count as 0.
            let number = |at: usize| task.get(at).copied().unwrap_or(0);
            let (flag, period, cost, deadline) = (number(0), number(1), number(2), number(3));
            let wrong = task_fault(flag, period, cost, deadline);
            if wrong != 0 {
                return fault(wrong, i as u32 + 1);
            }
            self.put(i, flag, period, cost, deadline);
        }
        0
    }

    /// How many whole periods of task i a window holds.
    #[inline(always)]
    pub fn jobs(&self, i: usize, window: u32) -> u32 {
        ((u64::from(window) * self.inverse[i]) >> SCALE) as u32
    }

    /// The work of task i in a window, E(k,i) being that in a window of D_k: all of the jobs begun, or the
    /// window less the pauses, whichever is less.
    #[inline(always)]
    pub fn work(&self, i: usize, window: u32) -> u32 {
        let jobs = self.jobs(i, window);
        (jobs * self.cost[i] + self.cost[i]).min(window - jobs * self.rest[i])
    }
}
