//! What the share of each task in the sum of task k is capped by besides q, chosen once a search.

use super::rows::{Row, Rows, PLACES};
use second::plan::EDF;

/// No cap: q is never larger.
const NONE: u32 = 1_000_000;

/// The caps of task k, 0 where a task is not summed, and the place from which on all are 0.
pub fn caps_of(rows: &Rows, flags: &Row, k: usize) -> (Row, usize) {
    let mut cap = [0; PLACES];
    let n = rows.n;
    if rows.policy == EDF {
        edf(rows, flags, k, &mut cap);
    } else {
        fp(n, flags, k, &mut cap);
        if flags[k] == 0 {
            block(rows, flags, k, &mut cap);
        }
    }
    cap[k] = 0;
    let used = cap[..n].iter().rposition(|&cap| cap != 0).map_or(0, |last| last + 1);
    (cap, used)
}

/// E(k,i), and none for a non-preemptive task beside a preemptive k. The differences of which the m largest
/// count are all 0: with a later deadline E(k,i) is min(C_i, D_k), and no q is larger than D_k.
fn edf(rows: &Rows, flags: &Row, k: usize, cap: &mut Row) {
    let deadline = rows.reach[k] + rows.cost[k];
    for i in 0..rows.n.min(PLACES) {
        let within = rows.work(i, deadline);
        cap[i] = if flags[i] < flags[k] { NONE } else { within };
    }
}

/// None for each higher task and, beside a preemptive k, for each lower non-preemptive one.
fn fp(n: usize, flags: &Row, k: usize, cap: &mut Row) {
    for i in 0..n.min(PLACES) {
        cap[i] = if i < k || flags[i] < flags[k] { NONE } else { 0 };
    }
}

/// C - 1 for the m lower non-preemptive tasks with the largest C: the sum of the m largest min(C - 1, q) is
/// theirs for every q, and W is at least min(C, l).
fn block(rows: &Rows, flags: &Row, k: usize, cap: &mut Row) {
    for _ in 0..rows.cores {
        let (mut longest, mut place) = (1, PLACES);
        for i in k + 1..rows.n.min(PLACES) {
            if flags[i] + cap[i] == 0 && longest < rows.cost[i] {
                (longest, place) = (rows.cost[i], i);
            }
        }
        if place == PLACES {
            return;
        }
        cap[place] = longest - 1;
    }
}
