//! The listing that the plan printer writes, or its one line for a refusal.

use crate::forcing::{force, BoundOf, Forced};
use crate::plan::{read, Refusal, Table, EDF};

/// What the plan printer writes for a text.
pub fn listing(text: &[u8], bound_of: BoundOf) -> String {
    match read(text) {
        Ok(table) => listing_of_table(&table, bound_of),
        Err(refusal) => refusal_line(&refusal),
    }
}

/// The same for a table that is legal already.
pub fn listing_of_table(table: &Table, bound_of: BoundOf) -> String {
    match force(table, bound_of) {
        Ok(forced) => accepted(table, &forced),
        Err(refusal) => refusal_line(&refusal),
    }
}

/// The passes follow for 14 and, in the second edition, for 15.
pub fn refusal_line(refusal: &Refusal) -> String {
    let Refusal { number, place, passes } = refusal;
    if *number == 14 || *number == 15 {
        format!("refused {number} place {place} passes {passes}\n")
    } else {
        format!("refused {number} place {place}\n")
    }
}

/// The lines of an accepted plan.
pub fn accepted(table: &Table, answer: &Forced) -> String {
    let policy = if table.policy == EDF { "EDF" } else { "FP" };
    let mut text = format!("plan {policy} cores {} tasks {}\n", table.cores, table.tasks.len());
    let mut total = 0;
    for (k, (task, record)) in table.tasks.iter().zip(&answer.records).enumerate() {
        let flag = if record.flag == 1 { "P" } else { "N" };
        let mark = if record.forced == 1 { "forced" } else { "given" };
        let load = (1000 * task.cost).div_ceil(task.period);
        total += load;
        text += &format!("task {} {flag} {mark} bound {}", k + 1, record.bound);
        text += &format!(" deadline {} load {load}\n", task.deadline);
    }
    text + &format!("total load {total} forced {} passes {}\n", answer.forced, answer.passes)
}
