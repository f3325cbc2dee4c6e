//! How many evaluations a search takes: in the best form, and by the textbook iteration.

use crate::best::rows::{Rows, PLACES};
use crate::best::search::Line;
use crate::best::{caps_of, tasks_counted, Count, Tally};
use crate::plans::numbers;
use crate::sides::{Job, ROOM};
use second::forcing::{force, test};
use second::plan::Table;
use std::cell::Cell;

/// The best form's own count.
pub fn of_best(job: Job, table: &Table) -> Count {
    let mut count = Count::default();
    let mut records = [0; ROOM];
    let flat = numbers(table);
    tasks_counted(job.number(), table.cores, table.policy, &flat, &mut records, &mut count);
    count
}

thread_local! {
    static COUNT: Cell<Count> = const { Cell::new(Count { searches: 0, evaluations: 0 }) };
    static LIMIT: Cell<u64> = const { Cell::new(u64::MAX) };
}

/// What the textbook iteration takes, or none where it is more than `limit`.
pub fn of_textbook(job: Job, table: &Table, limit: u64) -> Option<Count> {
    COUNT.set(Count::default());
    LIMIT.set(limit);
    match job {
        Job::Test => drop(test(table, walk)),
        Job::Force => drop(force(table, walk)),
    }
    let count = COUNT.get();
    (count.evaluations <= limit).then_some(count)
}

/// The iteration of Theorem 1 over the best form's sums, which are the same at each length that it looks at:
/// from q on to 1 + S(q) / m. Past the limit it finds nothing any more.
fn walk(table: &Table, flags: &[u32], k: usize) -> Option<u32> {
    let mut rows = Rows::new();
    assert_eq!(rows.fill(table.cores, table.policy, &numbers(table)), 0, "a table to count is legal");
    let mut now = [0; PLACES];
    now[..flags.len()].copy_from_slice(flags);
    let (cap, used) = caps_of(&rows, &now, k);
    let ahead = if now[k] == 0 { 0 } else { rows.cost[k] - 1 };
    let line = Line { rows: &rows, cap: &cap, used, ahead };
    let mut count = COUNT.get();
    // Fewer shares than cores: no search in the best form, and none is counted here.
    if used < table.cores as usize {
        return Some(rows.cost[k]);
    }
    count.search();
    let mut q = 1;
    let mut found = None;
    while q <= rows.reach[k] + 1 && count.evaluations <= LIMIT.get() {
        count.evaluation();
        let next = 1 + line.sum(q) / table.cores;
        if next <= q {
            found = Some(q + rows.cost[k] - 1);
            break;
        }
        q = next;
    }
    COUNT.set(count);
    found
}
