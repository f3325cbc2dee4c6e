//! Tables with levels: some worked out by hand, every order of small ones, and some drawn of each kind.

use crate::compare::bound_of;
use crate::forcing::{force, test};
use crate::hand::{case_a, case_c, case_d, case_e, case_g, case_k, table};
use crate::levels::{all_orders, drawn, leveled, with_levels};
use crate::plan::{Table, EDF, FP, LONGEST_PERIOD, MOST_TASKS};
use crate::random::Random;
use crate::tables::{all_tables, climb, draw, edge_pair, small_table};
use std::sync::OnceLock;

pub const SEED: u64 = 808;

// ---------------------------------------------------------------- by hand

/// The bounds of a test, 0 for none; and what forcing finds: forced count, passes and bounds, or place and
/// passes of 14.
pub struct Case {
    pub name: &'static str,
    pub table: Table,
    pub tested: Vec<u32>,
    pub forced: Result<(u32, u32, Vec<u32>), (u32, u32)>,
}

/// A case that passes as given.
fn passes(name: &'static str, table: Table, bounds: &[u32]) -> Case {
    Case { name, table, tested: bounds.to_vec(), forced: Ok((0, 1, bounds.to_vec())) }
}

fn refused(name: &'static str, table: Table, bounds: &[u32], place: u32, passes: u32) -> Case {
    Case { name, table, tested: bounds.to_vec(), forced: Err((place, passes)) }
}

/// Two tasks (6,2,6) with these flags and levels on one core.
fn pair(policy: u32, flags: [char; 2], levels: [u32; 2]) -> Table {
    with_levels(&table(policy, 1, &flags.map(|flag| (6, 2, 6, flag))), &levels)
}

/// tests/levels.rs has the sums.
pub fn by_hand() -> Vec<Case> {
    let at = |table: Table, levels: &[u32]| with_levels(&table, levels);
    vec![
        passes("one-level", pair(FP, ['P', 'P'], [1, 1]), &[6, 6]),
        passes("one-level-the-lowest", pair(FP, ['P', 'P'], [32, 32]), &[6, 6]),
        passes("places", pair(FP, ['P', 'P'], [1, 2]), &[2, 6]),
        passes("places-with-gaps", pair(FP, ['P', 'P'], [7, 31]), &[2, 6]),
        passes("against-the-order", pair(FP, ['P', 'P'], [2, 1]), &[6, 2]),
        passes("one-level-both-n", pair(FP, ['N', 'N'], [9, 9]), &[6, 6]),
        passes("both-n-in-places", pair(FP, ['N', 'N'], [1, 2]), &[3, 6]),
        passes("both-n-against-the-order", pair(FP, ['N', 'N'], [32, 1]), &[6, 3]),
        passes("one-level-p-n", pair(FP, ['P', 'N'], [4, 4]), &[6, 6]),
        passes("one-level-n-p", pair(FP, ['N', 'P'], [4, 4]), &[6, 6]),
        passes("n-below-p", pair(FP, ['P', 'N'], [4, 5]), &[6, 6]),
        passes("n-above-p", pair(FP, ['P', 'N'], [5, 4]), &[6, 2]),
        refused("a-on-one-level", at(case_a(), &[1, 1]), &[0, 0], 1, 2),
        refused("a-against-the-order", at(case_a(), &[2, 1]), &[0, 9], 1, 3),
        passes("c-with-gaps", at(case_c(), &[1, 32]), &[4, 17]),
        refused("d-on-one-level", at(case_d(), &[3, 3]), &[0, 13], 1, 2),
        refused("e-on-one-level", at(case_e(), &[1, 1]), &[0, 17], 1, 3),
        refused("e-against-the-order", at(case_e(), &[32, 1]), &[0, 17], 1, 3),
        Case {
            name: "g-two-on-one-level",
            table: at(case_g(), &[1, 1, 2]),
            tested: vec![4, 4, 20],
            forced: Ok((0, 1, vec![4, 4, 20])),
        },
        refused("g-on-one-level", at(case_g(), &[5, 5, 5]), &[0, 0, 20], 1, 2),
        passes("k-on-the-lowest", at(case_k('P'), &[32]), &[7]),
        passes("k-n-on-the-lowest", at(case_k('N'), &[32]), &[7]),
    ]
}

// ---------------------------------------------------------------- every order

/// Every table with T at most `longest`, n from 2 to `most` and at most `cores` cores, in every order.
pub fn all(longest: u32, most: u32, cores: u32) -> impl Iterator<Item = Table> {
    let orders: Vec<_> = (0..=most as usize).map(all_orders).collect();
    all_tables(longest, most, cores).filter(|table| table.tasks.len() > 1).flat_map(move |table| {
        let orders = orders[table.tasks.len()].clone();
        orders.into_iter().map(move |levels| with_levels(&table, &levels))
    })
}

// ---------------------------------------------------------------- at random

/// A random table with small times and legal levels.
pub fn small(random: &mut Random, most: u32, cores: u32, longest: u32) -> Table {
    let table = small_table(random, most, cores, longest);
    leveled(random, &table)
}

/// Two tables either side of the edge of acceptance, with levels of some kind.
pub fn edge(random: &mut Random, policy: u32, most: u32, longest: u32) -> (Table, Table) {
    loop {
        let n = random.small(2, most) as usize;
        let cores = random.small(1, (n as u32).min(16));
        let mut draw = draw(random, policy, cores, n, longest);
        draw.levels = drawn(random, n);
        if let Some(pair) = edge_pair(&draw) {
            return pair;
        }
    }
}

/// FP tables that are accepted after forcing, and whose answer is another in places.
fn forced_otherwise(random: &mut Random, count: usize) -> Vec<Table> {
    let mut tables = Vec::new();
    while tables.len() < count {
        let (inside, outside) = edge(random, FP, 8, 60);
        let in_places = Table::in_places(inside.cores, FP, &inside.tasks);
        let (here, there) = (force(&inside, bound_of), force(&in_places, bound_of));
        if here != there && here.is_ok_and(|answer| answer.forced > 0) {
            tables.extend([inside, outside]);
        }
    }
    tables
}

/// FP tables with many passes, accepted and refused, on levels of some kind.
fn climbed(random: &mut Random) -> Vec<Table> {
    let mut tables = Vec::new();
    for (n, cores) in [(3, 1), (4, 1), (5, 2), (6, 1), (8, 2)] {
        for accepted in [true, false] {
            let mut draw = draw(random, FP, cores, n, 60);
            (draw.levels, draw.flags) = (drawn(random, n), vec![1; n]);
            if let Some((inside, _)) = edge_pair(&draw) {
                tables.push(climb(random, inside, accepted, 300, 60));
            }
        }
    }
    tables
}

/// FP tables in which a task has a bound on its level and would have none one level on, or the other way.
fn beside_a_level(random: &mut Random, count: usize) -> Vec<Table> {
    let mut tables = Vec::new();
    while tables.len() < count {
        let table = Table { policy: FP, ..small(random, 6, 3, 30) };
        let at = random.between(0, table.tasks.len() as u64 - 1) as usize;
        let mut moved = table.clone();
        moved.tasks[at].level = if table.tasks[at].level > 1 { table.tasks[at].level - 1 } else { 2 };
        if test(&table, bound_of).1 != test(&moved, bound_of).1 {
            tables.extend([table, moved]);
        }
    }
    tables
}

/// As many tasks as there can be: on one level, in places, against them, by pairs; T short and as long as can
/// be; the flags by turns.
fn full() -> Vec<Table> {
    let n = MOST_TASKS as u32;
    let mut tables = Vec::new();
    for policy in [EDF, FP] {
        for (cores, (period, cost, deadline)) in
            [(1, (1_000, 3, 200)), (16, (64, 10, 60)), (3, (LONGEST_PERIOD, 20_000, LONGEST_PERIOD))]
        {
            for flag in ["P", "N", "PN"] {
                let letter = |k: u32| flag.chars().cycle().nth(k as usize).unwrap();
                let tasks: Vec<_> = (0..n).map(|k| (period, cost, deadline - k, letter(k))).collect();
                let here = table(policy, cores, &tasks);
                let orders: [fn(u32) -> u32; 6] =
                    [|_| 1, |_| 32, |k| k + 1, |k| 32 - k, |k| k / 2 + 1, |k| 16 + k % 2];
                for order in orders {
                    tables.push(with_levels(&here, &(0..n).map(order).collect::<Vec<u32>>()));
                }
            }
        }
    }
    tables
}

/// Some tables of each kind, drawn once.
pub fn kinds() -> &'static [Table] {
    static KINDS: OnceLock<Vec<Table>> = OnceLock::new();
    KINDS.get_or_init(|| {
        let mut random = Random::new(SEED);
        let mut tables = full();
        tables.extend(climbed(&mut random));
        tables.extend(forced_otherwise(&mut random, 60));
        tables.extend(beside_a_level(&mut random, 200));
        for _ in 0..20 {
            for policy in [EDF, FP] {
                let (inside, outside) = edge(&mut random, policy, 10, 200);
                tables.extend([inside, outside]);
            }
        }
        tables
    })
}
