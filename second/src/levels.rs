//! Levels for tables (document 02, wish 8): shared ones, against the table's order, with gaps, and outside
//! their range.

use crate::plan::{Table, Task, LOWEST_LEVEL};
use crate::random::Random;

/// The table with these levels.
pub fn with_levels(table: &Table, levels: &[u32]) -> Table {
    let mut other = table.clone();
    for (task, &level) in other.tasks.iter_mut().zip(levels) {
        task.level = level;
    }
    other
}

pub fn levels_of(table: &Table) -> Vec<u32> {
    table.tasks.iter().map(|task| task.level).collect()
}

/// Every order of n tasks, ties included, each once, as levels from 1 without gaps: 1, 3, 13, 75, .. of them.
pub fn all_orders(n: usize) -> Vec<Vec<u32>> {
    let mut orders = vec![Vec::new()];
    for _ in 0..n {
        let longer = |order: &Vec<u32>| {
            let order = order.clone();
            (1..=n as u32).map(move |level| [&order[..], &[level]].concat())
        };
        orders = orders.iter().flat_map(longer).collect();
    }
    orders.retain(|order| ranks(order) == *order);
    orders
}

/// The same order without gaps: each level counts the different ones up to it.
pub fn ranks(levels: &[u32]) -> Vec<u32> {
    let mut known = levels.to_vec();
    known.sort();
    known.dedup();
    levels.iter().map(|level| known.iter().position(|one| one == level).unwrap() as u32 + 1).collect()
}

// ---------------------------------------------------------------- at random

fn shuffled(random: &mut Random, mut list: Vec<u32>) -> Vec<u32> {
    for last in (1..list.len()).rev() {
        list.swap(last, random.between(0, last as u64) as usize);
    }
    list
}

/// Legal levels for n tasks, of one kind or another.
pub fn drawn(random: &mut Random, n: usize) -> Vec<u32> {
    let (count, most) = (n as u32, LOWEST_LEVEL);
    let any = |random: &mut Random| random.small(1, most);
    match random.small(0, 11) {
        // All on one level; all on the highest; all on the lowest.
        0 => vec![any(random); n],
        1 => vec![1; n],
        2 => vec![most; n],
        // Against the table's order.
        3 => (1..=count).rev().collect(),
        4 => (0..count).map(|k| most - k).collect(),
        // Two or three levels.
        5 => {
            let few = [any(random), any(random), any(random)];
            (0..n).map(|_| random.pick(&few)).collect()
        }
        6 => (0..n).map(|_| random.pick(&[1, most])).collect(),
        // Any levels; all different ones; in table order with gaps.
        7 => (0..n).map(|_| any(random)).collect(),
        8 => shuffled(random, (1..=count).collect()),
        9 => {
            let mut some = shuffled(random, (1..=most).collect())[..n].to_vec();
            some.sort();
            some
        }
        // In pairs; and places, but for one task on the level of another.
        10 => (0..count).map(|k| k / 2 + 1).collect(),
        _ => {
            let mut places: Vec<u32> = (1..=count).collect();
            places[random.between(0, n as u64 - 1) as usize] = random.small(1, count);
            places
        }
    }
}

/// Numbers that are no levels: 0, those past 32, and those of which a byte or another part would be one.
pub const OUTSIDE: &[u32] =
    &[0, 33, 34, 63, 64, 65, 128, 129, 255, 256, 257, 288, 65_536, 65_537, 1 << 31, (1 << 31) + 1, u32::MAX];

/// The table with legal levels of some kind.
pub fn leveled(random: &mut Random, table: &Table) -> Table {
    let levels = drawn(random, table.tasks.len());
    with_levels(table, &levels)
}

/// One task's level is put outside its range.
pub fn off_level(random: &mut Random, table: &Table) -> Table {
    let mut other = table.clone();
    let at = random.between(0, table.tasks.len() as u64 - 1) as usize;
    other.tasks[at].level = random.pick(OUTSIDE);
    other
}

// ---------------------------------------------------------------- five numbers to a task

/// Flag, T, C, D, level of each.
pub fn flat(tasks: &[Task]) -> Vec<u32> {
    let five = |task: &Task| [task.flag, task.period, task.cost, task.deadline, task.level];
    tasks.iter().flat_map(five).collect()
}

/// Where the last task has fewer than five numbers, those that are missing count as 0.
pub fn unflat(numbers: &[u32]) -> Vec<Task> {
    let mut tasks = Vec::new();
    for part in numbers.chunks(5) {
        let mut five = [0; 5];
        five[..part.len()].copy_from_slice(part);
        let [flag, period, cost, deadline, level] = five;
        tasks.push(Task { flag, period, cost, deadline, level });
    }
    tasks
}
