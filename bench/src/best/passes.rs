//! The test of a whole table, and forcing.
//!
//! Flags only fall, and with them no sum: so a preemptive task is searched on from where it stands, and the
//! others once, when the flags are final.

use super::caps::caps_of;
use super::rows::{Row, Rows};
use super::search::{Line, Tally};
use second::plan::EDF;

/// The least q of task k, 0 for none; q + C - 1 is its bound for both flags.
fn least_q<T: Tally>(rows: &Rows, flags: &Row, k: usize, from: u32, tally: &mut T) -> u32 {
    let (cap, used) = caps_of(rows, flags, k);
    let ahead = if flags[k] == 0 { 0 } else { rows.cost[k] - 1 };
    Line { rows, cap: &cap, used, ahead }.least_q(from, rows.reach[k] + 1, tally)
}

fn bound_at(q: u32, cost: u32) -> u32 {
    if q == 0 {
        0
    } else {
        q + cost - 1
    }
}

/// The bound of each task under these flags.
pub fn test<T: Tally>(rows: &Rows, flags: &Row, bounds: &mut Row, tally: &mut T) {
    for k in 0..rows.n {
        bounds[k] = bound_at(least_q(rows, flags, k, 0, tally), rows.cost[k]);
    }
}

/// The number of passes. The flags become the final ones, and the bounds those of the last test up to the
/// first task that has none.
pub fn force<T: Tally>(rows: &Rows, flags: &mut Row, bounds: &mut Row, tally: &mut T) -> u32 {
    let mut passes = 0;
    let mut end = rows.n;
    loop {
        for k in 0..end {
            if flags[k] != 0 {
                bounds[k] = least_q(rows, flags, k, bounds[k], tally);
            }
        }
        passes += 1;
        match force_lacking(rows.n, bounds, flags) {
            0 => break,
            // Under FP a task sees no change of a higher one.
            last => end = if rows.policy == EDF { rows.n } else { last },
        }
    }
    finish(rows, flags, bounds, tally);
    passes
}

/// Every preemptive task without a q becomes non-preemptive; the number of the last that did, 0 for none.
fn force_lacking(n: usize, reached: &Row, flags: &mut Row) -> usize {
    let mut last = 0;
    for k in 0..n {
        if flags[k] != 0 && reached[k] == 0 {
            flags[k] = 0;
            last = k + 1;
        }
    }
    last
}

/// From where the preemptive tasks stand to bounds, the other tasks being searched for the first time.
fn finish<T: Tally>(rows: &Rows, flags: &Row, bounds: &mut Row, tally: &mut T) {
    for k in 0..rows.n {
        let q = if flags[k] == 0 { least_q(rows, flags, k, 0, tally) } else { bounds[k] };
        bounds[k] = bound_at(q, rows.cost[k]);
        if q == 0 {
            return;
        }
    }
}
