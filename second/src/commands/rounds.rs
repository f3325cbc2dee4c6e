//! Hunts for tables with many rounds, small ones first, and stretches the best to the longest period.

use second::edition2_hunt::{most_rounds, stretched};
use second::plan::{Table, EDF, FP};
use second::random::Random;
use std::io;

/// Cores and tasks.
const SIZES: [(u32, u32); 6] = [(1, 2), (1, 3), (1, 4), (2, 3), (2, 4), (3, 6)];

pub fn run(seed: u64) -> io::Result<()> {
    let mut random = Random::new(seed);
    for longest in [12, 100, 1_000] {
        for (cores, n) in SIZES {
            for policy in [EDF, FP] {
                let (rounds, table) = most_rounds(&mut random, [policy, cores, n, longest], 8, 4_000);
                show(rounds, &table);
                if longest == 1_000 {
                    let (rounds, table) = stretched(&table, 1_000, 2_000_000);
                    show(rounds, &table);
                }
            }
        }
    }
    Ok(())
}

fn show(rounds: u32, table: &Table) {
    let policy = if table.policy == EDF { "EDF" } else { "FP" };
    let letter = |flag: u32| if flag == 1 { 'P' } else { 'N' };
    let tasks = table.tasks.iter().map(|t| (t.period, t.cost, t.deadline, letter(t.flag)));
    println!("{rounds} rounds, {policy}, cores {}: {:?}", table.cores, tasks.collect::<Vec<_>>());
}
