//! The search for the least q at which the shares sum to less than m q.
//!
//! The share of task i is min(W_i, cap_i, q), with W_i its work in a window of q + ahead + reach_i. Where the
//! line fails, each share grows on, quantum by quantum, at least until the job in progress is done or its cap
//! is met. That makes a piecewise linear lower bound of the sum, and the search goes on where it meets m q.

use super::rows::{Row, Rows, PLACES};

/// More than any share can grow by.
const NO_END: u32 = 2_000_000;

/// Told of what a search does. Nothing is done for the empty tally, which is the one that is timed.
pub trait Tally {
    fn search(&mut self) {}
    fn evaluation(&mut self) {}
}

impl Tally for () {}

/// How many searches there were that looked at a sum, and how often they did.
#[derive(Clone, Copy, Default)]
pub struct Count {
    pub searches: u64,
    pub evaluations: u64,
}

impl Count {
    /// Evaluations a search.
    pub fn mean(&self) -> f64 {
        self.evaluations as f64 / self.searches.max(1) as f64
    }
}

impl std::ops::AddAssign for Count {
    fn add_assign(&mut self, more: Count) {
        self.searches += more.searches;
        self.evaluations += more.evaluations;
    }
}

impl Tally for Count {
    fn search(&mut self) {
        self.searches += 1;
    }

    fn evaluation(&mut self) {
        self.evaluations += 1;
    }
}

/// What does not change while q grows.
pub struct Line<'a> {
    pub rows: &'a Rows,
    pub cap: &'a Row,
    /// From this place on every cap is 0.
    pub used: usize,
    /// How much longer than q a length is.
    pub ahead: u32,
}

/// The shares at one q: their sum, how much they are sure to grow all together, and how much each.
struct Shares {
    sum: u32,
    all: u32,
    growth: Row,
}

impl Line<'_> {
    /// The least q up to `last`, or 0. No q below `from` is enough; a `from` of 0 says nothing.
    pub fn least_q<T: Tally>(&self, from: u32, last: u32, tally: &mut T) -> u32 {
        // Fewer shares than cores, each at most q.
        if self.used < self.rows.cores as usize {
            return 1;
        }
        tally.search();
        let mut q = if from == 0 { self.start(last) } else { from };
        while q <= last {
            tally.evaluation();
            let shares = self.shares(q);
            let enough = self.rows.cores * q;
            if shares.sum < enough {
                return q;
            }
            q += self.advance(&shares.growth, shares.sum - enough, shares.all, last + 1 - q);
        }
        0
    }

    /// The sum at q, for those who count the textbook's steps over it.
    pub fn sum(&self, q: u32) -> u32 {
        self.shares(q).sum
    }

    /// The first q to look at: a share is at least min(C, cap, q), so from q = 0 on it grows by min(C, cap).
    fn start(&self, last: u32) -> u32 {
        let mut growth = [0; PLACES];
        let mut all = 0;
        for i in 0..self.used.min(PLACES) {
            growth[i] = self.rows.cost[i].min(self.cap[i]);
            all += growth[i];
        }
        self.advance(&growth, 0, all, last + 1)
    }

    /// Two loops without a branch, so that both work on several tasks at a time.
    #[inline(always)]
    fn shares(&self, q: u32) -> Shares {
        let (rows, used) = (self.rows, self.used.min(PLACES));
        let (mut full, mut begun) = ([0; PLACES], [0; PLACES]);
        for i in 0..used {
            let window = q + self.ahead + rows.reach[i];
            let jobs = rows.jobs(i, window);
            // A task with C = T never pauses.
            full[i] = if rows.rest[i] == 0 { NO_END } else { jobs * rows.cost[i] + rows.cost[i] };
            begun[i] = window - jobs * rows.rest[i];
        }
        let (mut sum, mut all) = (0, 0);
        for i in 0..used {
            let top = full[i].min(self.cap[i]);
            let share = top.min(begun[i]).min(q);
            full[i] = top - share;
            sum += share;
            all += top - share;
        }
        Shares { sum, all, growth: full }
    }

    /// How far on the line can hold at the earliest, at most `left`, where the sum is `over` too large now.
    /// From above: while the line would hold one quantum before d, d falls to where the growth that is sure
    /// by then meets it.
    #[inline(always)]
    fn advance(&self, growth: &Row, over: u32, all: u32, left: u32) -> u32 {
        let m = self.rows.cores;
        let mut d = ((over + all) / m + 1).min(left);
        loop {
            let (mut low, mut growing) = (0, 0);
            for &by in &growth[..self.used.min(PLACES)] {
                low += if by < d { by } else { 0 };
                growing += u32::from(by >= d);
            }
            if m * (d - 1) <= over + low + growing * (d - 1) {
                return d;
            }
            d = (over + low) / (m - growing) + 1;
        }
    }
}
