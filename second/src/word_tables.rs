//! Tables for the flags word: every bit by itself, all bits, none, and high bits set by forcing.

use crate::forcing::force;
use crate::hand::{lettered, table};
use crate::plan::{Table, EDF, FP, MOST_TASKS};
use crate::random::Random;
use crate::tables::next_edge_pair;
use crate::textbook;
use std::sync::OnceLock;

pub const SEED: u64 = 707;

/// n tasks that pass easily, with these flags.
fn light(policy: u32, cores: u32, n: usize, flag: impl Fn(usize) -> char) -> Table {
    let tasks: Vec<_> = (0..n).map(|k| (1_000, 1, 200, flag(k))).collect();
    table(policy, cores, &tasks)
}

/// One task of n against all others, either way round; every other task; all alike.
fn given() -> Vec<Table> {
    let mut tables = Vec::new();
    for n in 1..=MOST_TASKS {
        for policy in [EDF, FP] {
            tables.push(light(policy, 2, n, |_| 'N'));
            tables.push(light(policy, 2, n, |_| 'P'));
            tables.push(light(policy, 1, n, |k| if k % 2 == 0 { 'N' } else { 'P' }));
            tables.push(light(policy, 3, n, |k| if k + 1 == n { 'N' } else { 'P' }));
        }
        tables.push(light(FP, 1, MOST_TASKS, |k| if k + 1 == n { 'N' } else { 'P' }));
        tables.push(light(EDF, 1, MOST_TASKS, |k| if k + 1 == n { 'P' } else { 'N' }));
    }
    tables
}

/// 32 preemptive tasks that forcing makes non-preemptive one by one, from the last to the first, in 33
/// passes: accepted with every bit set. In these lengths each task brings its C, and task 1 twice that. As
/// preemptive, task 32 ends at 36, since task 1 comes a third time at 35; as non-preemptive it starts at 33
/// and ends at 35. Then task 31 has no bound as preemptive, and so on; at the end task k has k + 3, and task
/// 1 has 3.
pub fn all_forced() -> Table {
    let mut tasks = vec![(1_000_000, 1, 34, 'P'); MOST_TASKS];
    tasks[0] = (33, 1, 33, 'P');
    tasks[31] = (1_000_000, 3, 35, 'P');
    table(FP, 1, &tasks)
}

/// More tasks that take a whole core each than there can be cores: refused with 14 on every number of them,
/// some tasks being given as non-preemptive.
fn too_many() -> Vec<Table> {
    let flag = |k: usize| if k % 3 == 0 { 'P' } else { 'N' };
    let tasks = |n: usize| (0..n).map(|k| (5, 5, 5, flag(k))).collect::<Vec<_>>();
    [(EDF, 17), (FP, 17), (EDF, 32), (FP, 32)].map(|(policy, n)| table(policy, 16, &tasks(n))).to_vec()
}

/// The same with some tasks given as non-preemptive: accepted with the others forced.
fn rest_forced(random: &mut Random, count: usize) -> Vec<Table> {
    let mut tables = Vec::new();
    while tables.len() < count {
        let (mut table, once_in) = (all_forced(), random.pick(&[2, 4, 16]));
        for task in &mut table.tasks {
            task.flag = u32::from(!random.once_in(once_in));
        }
        if force(&table, textbook::bound_of).is_ok_and(|answer| answer.forced >= 2) {
            tables.push(table);
        }
    }
    tables
}

/// Tables that are accepted with two or more tasks forced, beside each one that is refused.
fn forced(random: &mut Random, count: usize) -> Vec<Table> {
    let mut tables = Vec::new();
    while tables.len() < count {
        let (inside, outside) = next_edge_pair(random, tables.len() as u32 / 2 % 2, 7, 60);
        if force(&inside, textbook::bound_of).is_ok_and(|answer| answer.forced >= 2) {
            tables.extend([inside, outside]);
        }
    }
    tables
}

/// Document 01's cases, and some of each kind, drawn once.
pub fn tables() -> &'static [Table] {
    static TABLES: OnceLock<Vec<Table>> = OnceLock::new();
    TABLES.get_or_init(|| {
        let mut random = Random::new(SEED);
        let mut tables: Vec<Table> = lettered().into_iter().map(|(_, table)| table).collect();
        tables.extend(given());
        tables.push(all_forced());
        tables.extend(too_many());
        tables.extend(rest_forced(&mut random, 24));
        tables.extend(forced(&mut random, 24));
        tables
    })
}
