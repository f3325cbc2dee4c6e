//! A second way to a bound with levels, by document 01's rule for places alone: for task k the table is put
//! in an order in which the tasks with a smaller or equal level stand before k and all others behind it.
//!
//! How those before k stand among each other does not matter, nor how those behind it do: they are put in the
//! order that the table has not.

use crate::plan::{Table, EDF};
use crate::{bound, edition2_bound};

/// The table, and a list that goes with it, in another order. The places are the levels then.
fn reordered(table: &Table, list: &[u32], order: &[usize]) -> (Table, Vec<u32>) {
    let tasks: Vec<_> = order.iter().map(|&i| table.tasks[i]).collect();
    let list = order.iter().map(|&i| list[i]).collect();
    (Table::in_places(table.cores, table.policy, &tasks), list)
}

/// Those before k, k, and those behind it; and where k stands then.
fn order_for(table: &Table, k: usize) -> (Vec<usize>, usize) {
    let n = table.tasks.len();
    if table.policy == EDF {
        return ((0..n).collect(), k);
    }
    let level = table.tasks[k].level;
    let behind = |&i: &usize| table.tasks[i].level > level;
    let mut order: Vec<usize> = (0..n).rev().filter(|i| *i != k && !behind(i)).collect();
    let at = order.len();
    order.push(k);
    order.extend((0..n).rev().filter(behind));
    (order, at)
}

/// The bound of task k under these flags, or none.
pub fn bound_of(table: &Table, flags: &[u32], k: usize) -> Option<u32> {
    let (order, at) = order_for(table, k);
    let (table, flags) = reordered(table, flags, &order);
    bound::bound_of(&table, &flags, at)
}

/// The same under slacks.
pub fn bound_under_slacks(table: &Table, flags: &[u32], slacks: &[u32], k: usize) -> Option<u32> {
    let (order, at) = order_for(table, k);
    let slacks: Vec<u32> = order.iter().map(|&i| slacks[i]).collect();
    let (table, flags) = reordered(table, flags, &order);
    edition2_bound::bound_of(&table, &flags, &slacks, at)
}
