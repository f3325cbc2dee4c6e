//! A hunt for slow plans: tables are changed at random, and a change stays where it costs no less.
//!
//! What a table costs is counted in evaluations of the best form's own search, or timed in the archive. A
//! climb begins with short periods, where a table is answered quickly, and ends with long ones.

use crate::clock::{now, time};
use crate::mutate::{changed, first, stretched};
use crate::plans::{save, Plan};
use crate::sides::{archive, best, compare, Job, ROOM};
use crate::steps::of_best;
use second::plan::{Table, EDF, FP, LONGEST_PERIOD};
use second::random::Random;
use std::io;
use std::path::Path;
use std::time::Duration;

/// Cores and tasks of the tables.
const SIZES: [(u32, usize); 8] = [(1, 4), (1, 32), (2, 8), (3, 16), (8, 32), (11, 32), (15, 32), (16, 32)];

/// The longest period of a climb's first part, and what is lengthened after it.
const SHORT: u32 = 1_000;
const LONG: u32 = 100;
/// How much of a climb's time its first part has.
const SHORT_PART: f64 = 0.85;

/// So many changes in vain, and a climb begins anew.
const PATIENCE: u32 = 400;

#[derive(Clone, Copy, PartialEq, Eq)]
enum Goal {
    /// Evaluations of the best form.
    Count(Job),
    /// Nanoseconds of the archive.
    Time(Job),
}

const GOALS: [(Goal, &str); 4] = [
    (Goal::Count(Job::Test), "evaluations, test"),
    (Goal::Count(Job::Force), "evaluations, force"),
    (Goal::Time(Job::Test), "archive's time, test"),
    (Goal::Time(Job::Force), "archive's time, force"),
];

impl Goal {
    fn job(self) -> Job {
        match self {
            Goal::Count(job) | Goal::Time(job) => job,
        }
    }

    fn cost(self, table: &Table) -> u64 {
        match self {
            Goal::Count(job) => of_best(job, table).evaluations,
            Goal::Time(job) => time_of(&Plan::of(table), job, archive).as_nanos() as u64,
        }
    }
}

/// The least time of three calls, of one if that takes long.
fn time_of(plan: &Plan, job: Job, side: fn(Job, &Plan, &mut [u32]) -> u64) -> Duration {
    let mut records = [0; ROOM];
    let mut call = || {
        time(|| {
            std::hint::black_box(side(job, plan, &mut records));
        })
    };
    let once = call();
    if once > Duration::from_millis(10) {
        once
    } else {
        once.min(call()).min(call())
    }
}

struct Climb<'a> {
    random: &'a mut Random,
    goal: Goal,
    table: Table,
    cost: u64,
}

impl Climb<'_> {
    /// Changes the table until the time is up or the last so many changes were in vain.
    fn on(&mut self, longest: u32, until: Duration) {
        let mut left = PATIENCE;
        while left > 0 && now() < until {
            let next = changed(self.random, &self.table, longest);
            let cost = self.goal.cost(&next);
            left = if cost > self.cost { PATIENCE } else { left - 1 };
            if cost >= self.cost {
                (self.table, self.cost) = (next, cost);
            }
        }
    }
}

/// The worst table of one size, after `seconds`.
fn worst(random: &mut Random, goal: Goal, policy: u32, size: (u32, usize), seconds: f64) -> (u64, Table) {
    let start = now();
    let until = |part: f64| start + Duration::from_secs_f64(seconds * part);
    let mut found: Option<(u64, Table)> = None;
    while found.is_none() || now() < until(SHORT_PART) {
        let table = first(random, policy, size.0, size.1, SHORT);
        let cost = goal.cost(&table);
        let mut climb = Climb { random, goal, table, cost };
        climb.on(SHORT, until(SHORT_PART));
        if found.as_ref().is_none_or(|(cost, _)| climb.cost > *cost) {
            found = Some((climb.cost, climb.table));
        }
    }
    let (cost, table) = found.expect("a first table was made");
    let long = stretched(&table, LONGEST_PERIOD / SHORT, LONG, LONGEST_PERIOD);
    let long_cost = goal.cost(&long);
    let (table, cost) = if long_cost > cost { (long, long_cost) } else { (table, cost) };
    let mut climb = Climb { random, goal, table, cost };
    climb.on(LONGEST_PERIOD, until(1.0));
    (climb.cost, climb.table)
}

/// Hunts, prints the worst table of each goal and policy, and writes their plans where a file is named.
pub fn run(seconds: f64, seed: u64, file: Option<&Path>) -> io::Result<()> {
    let mut random = Random::new(seed);
    let share = seconds / (GOALS.len() * 2 * SIZES.len()) as f64;
    let mut kept = Vec::new();
    println!("| policy | most | cores | tasks | evaluations | best, µs | archive, µs | archive / best |");
    println!("|---|---|---|---|---|---|---|---|");
    for (policy, name) in [(EDF, "EDF"), (FP, "FP")] {
        for (goal, title) in GOALS {
            let found = SIZES.map(|size| worst(&mut random, goal, policy, size, share));
            let (_, table) = found.iter().max_by_key(|(cost, _)| *cost).expect("there are sizes");
            print_row(name, title, goal.job(), table);
            kept.push(table.clone());
            if let Some(path) = file {
                save(path, &kept)?;
            }
        }
    }
    Ok(())
}

fn print_row(policy: &str, title: &str, job: Job, table: &Table) {
    let plan = Plan::of(table);
    compare(job, &plan, false);
    let micros = |side| time_of(&plan, job, side).as_secs_f64() * 1e6;
    let (ours, theirs) = (micros(best), micros(archive));
    println!(
        "| {policy} | {title} | {} | {} | {} | {ours:.1} | {theirs:.1} | {:.2} |",
        table.cores,
        table.tasks.len(),
        of_best(job, table).evaluations,
        theirs / ours
    );
}
