//! Makes workloads: plans with C = T beside others, and plans under FP whose tasks are all non-preemptive,
//! most of them drawn at random near the edge of acceptance. The same seed gives the same files everywhere.

use crate::plans::{folder, save};
use second::plan::{Table, Task, EDF, FP, LONGEST_PERIOD};
use second::random::Random;
use second::tables::{draw, edge_pair, spread_period};
use std::io;

const SEED: u64 = 15;
/// Plans of a workload: twice this number, for n = 8; half as many for each doubling of n.
const PAIRS: usize = 64;

/// Pairs of tables either side of the edge of acceptance, each with `full` tasks with C = D = T that have a
/// core of their own, at random places of the higher half.
fn with_full(random: &mut Random, policy: u32, n: usize) -> [Table; 2] {
    loop {
        let cores = random.small(2, (n as u32 / 2).min(16));
        let full = random.small(1, cores - 1);
        let drawn = draw(random, policy, cores - full, n - full as usize, LONGEST_PERIOD);
        if let Some((mut inside, mut outside)) = edge_pair(&drawn) {
            for _ in 0..full {
                let any = spread_period(random, LONGEST_PERIOD);
                let period = random.pick(&[1, 1, 2, 1_000, LONGEST_PERIOD, any]);
                let task = Task::of_four(random.small(0, 1), period, period, period);
                let place = random.between(0, inside.tasks.len() as u64 / 2) as usize;
                for table in [&mut inside, &mut outside] {
                    table.cores += 1;
                    table.tasks.insert(place, task);
                }
            }
            return [inside, outside].map(|table| Table::in_places(table.cores, policy, &table.tasks));
        }
    }
}

/// Pairs at the edge with every task non-preemptive.
fn unbroken(random: &mut Random, n: usize) -> [Table; 2] {
    loop {
        let cores = random.small(1, (n as u32 / 2).min(16));
        let mut drawn = draw(random, FP, cores, n, LONGEST_PERIOD);
        drawn.flags.fill(0);
        if let Some((inside, outside)) = edge_pair(&drawn) {
            return [inside, outside];
        }
    }
}

/// A task with C = T on each of 16 cores, and light long tasks beside them: no length is enough, which a
/// search that takes the growth of a share to end with its period sees only after going through all of them.
fn all_full(policy: u32) -> Table {
    let full = Task::of_four(1, 1, 1, 1);
    let long = Task::of_four(1, LONGEST_PERIOD, 1, LONGEST_PERIOD);
    let mut tasks = vec![full; 16];
    tasks.resize(32, long);
    Table::in_places(16, policy, &tasks)
}

/// Short tasks that need all 11 cores all the time, and as many light long tasks as leave the sum less than a
/// quantum of all cores above the line: each jump ends with the next period of 2.
fn ramp() -> Table {
    let mut tasks = vec![Task::of_four(0, 2, 1, 1); 22];
    tasks.resize(32, Task::of_four(1, LONGEST_PERIOD, 1, LONGEST_PERIOD));
    Table::in_places(11, EDF, &tasks)
}

/// Writes the workloads.
pub fn run() -> io::Result<()> {
    save(&folder().join("adv_ramp_edf_m11.plans"), &[ramp()])?;
    save(&folder().join("adv_full_edf_m16.plans"), &[all_full(EDF)])?;
    save(&folder().join("adv_full_fp_m16.plans"), &[all_full(FP)])?;
    for n in [8, 16, 32] {
        let pairs = PAIRS * 8 / n;
        for (policy, name) in [(EDF, "edf"), (FP, "fp")] {
            let mut random = Random::new(SEED);
            let tables: Vec<Table> = (0..pairs).flat_map(|_| with_full(&mut random, policy, n)).collect();
            save(&folder().join(format!("full_{name}_n{n}.plans")), &tables)?;
        }
        let mut random = Random::new(SEED);
        let tables: Vec<Table> = (0..pairs).flat_map(|_| unbroken(&mut random, n)).collect();
        save(&folder().join(format!("unbroken_fp_n{n}.plans")), &tables)?;
    }
    Ok(())
}
