//! Legal tables to compare with: all small ones, and random ones that lie near the edge of acceptance.

use crate::forcing::force;
use crate::plan::{Table, Task, EDF, FP, LONGEST_PERIOD};
use crate::random::Random;
use crate::textbook;

// ---------------------------------------------------------------- all small tables

/// Every task with a period of at most `longest`, with both flags.
pub fn all_tasks(longest: u32) -> Vec<Task> {
    let mut tasks = Vec::new();
    for period in 1..=longest {
        for deadline in 1..=period {
            for cost in 1..=deadline {
                tasks.push(Task::of_four(1, period, cost, deadline));
                tasks.push(Task::of_four(0, period, cost, deadline));
            }
        }
    }
    tasks
}

/// Every table with T at most `longest`, n at most `most`, m at most `cores`, under both policies. Tables
/// with fewer tasks come first.
pub fn all_tables(longest: u32, most: u32, cores: u32) -> impl Iterator<Item = Table> {
    let tasks = all_tasks(longest);
    (1..=most).flat_map(move |n| {
        let tasks = tasks.clone();
        let lists = (tasks.len() as u64).pow(n);
        (0..lists).flat_map(move |number| {
            let list = list_numbered(&tasks, n, number);
            (1..=cores).flat_map(move |cores| {
                let list = list.clone();
                [EDF, FP].into_iter().map(move |policy| Table::in_places(cores, policy, &list))
            })
        })
    })
}

/// The list of n tasks whose number, written to the base of `tasks.len()`, has these tasks as digits.
fn list_numbered(tasks: &[Task], n: u32, mut number: u64) -> Vec<Task> {
    let base = tasks.len() as u64;
    let mut list = Vec::new();
    for _ in 0..n {
        list.push(tasks[(number % base) as usize]);
        number /= base;
    }
    list
}

/// All tables with T <= 4, n <= 3, m <= 3: 393,840 of them.
pub fn all_small_tables() -> impl Iterator<Item = Table> {
    all_tables(4, 3, 3)
}

// ---------------------------------------------------------------- random tables

/// A period that is spread evenly over the orders of magnitude from 2 to `longest`.
pub fn spread_period(random: &mut Random, longest: u32) -> u32 {
    let orders = 32 - longest.leading_zeros();
    let order = random.small(2, orders.max(2));
    let low = 1 << (order - 1);
    random.small(low, (2 * low - 1).min(longest).max(low)).clamp(1, longest)
}

/// Shares of a whole: n numbers that sum to `whole`, every such split being equally likely. This is what
/// UUniFast draws, done with cuts of a line and no floating point.
pub fn shares(random: &mut Random, n: usize, whole: u64) -> Vec<u64> {
    let mut cuts: Vec<u64> = (1..n).map(|_| random.between(0, whole)).collect();
    cuts.push(0);
    cuts.push(whole);
    cuts.sort();
    cuts.windows(2).map(|pair| pair[1] - pair[0]).collect()
}

/// What a random table is made from before its costs are scaled.
pub struct Draw {
    pub cores: u32,
    pub policy: u32,
    pub flags: Vec<u32>,
    pub periods: Vec<u32>,
    pub deadlines: Vec<u32>,
    /// Share of one core in millionths.
    pub shares: Vec<u64>,
    pub levels: Vec<u32>,
}

/// Draws all but the costs. Half the tables have D = T; some have tasks given as non-preemptive. The levels
/// are the places.
pub fn draw(random: &mut Random, policy: u32, cores: u32, n: usize, longest: u32) -> Draw {
    let mut periods: Vec<u32> = (0..n).map(|_| spread_period(random, longest)).collect();
    if random.once_in(2) {
        // Shorter periods first, as a planner would give priorities.
        periods.sort();
    }
    let implicit = random.once_in(2);
    let mut deadlines = Vec::new();
    for &period in &periods {
        let shortest = (period / 2).max(1);
        deadlines.push(if implicit { period } else { random.small(shortest, period) });
    }
    let given = random.pick(&[0, 0, 0, 4, 2]);
    let mut flags = Vec::new();
    for _ in 0..n {
        flags.push(u32::from(given == 0 || !random.once_in(given)));
    }
    let shares = shares(random, n, 1_000_000 * cores as u64);
    Draw { cores, policy, flags, periods, deadlines, shares, levels: (1..=n as u32).collect() }
}

/// The table of a draw with all costs scaled by scale / 65,536 and kept legal.
pub fn scaled(draw: &Draw, scale: u64) -> Table {
    let mut tasks = Vec::new();
    for i in 0..draw.periods.len() {
        let (period, deadline) = (draw.periods[i], draw.deadlines[i]);
        let wanted = draw.shares[i] * period as u64 / 1_000_000 * scale / 65_536;
        let cost = wanted.clamp(1, deadline as u64) as u32;
        tasks.push(Task { flag: draw.flags[i], period, cost, deadline, level: draw.levels[i] });
    }
    Table { cores: draw.cores, policy: draw.policy, tasks }
}

pub fn accepted(table: &Table) -> bool {
    force(table, textbook::bound_of).is_ok()
}

/// Two tables either side of the edge of acceptance by forcing: the accepted one first. None where every
/// scale is accepted, or none is.
pub fn edge_pair(draw: &Draw) -> Option<(Table, Table)> {
    let (mut low, mut high) = (1, 2 * 65_536);
    if !accepted(&scaled(draw, low)) || accepted(&scaled(draw, high)) {
        return None;
    }
    while high - low > 1 {
        let middle = (low + high) / 2;
        if accepted(&scaled(draw, middle)) {
            low = middle;
        } else {
            high = middle;
        }
    }
    Some((scaled(draw, low), scaled(draw, high)))
}

/// The next pair at the edge for a policy, with n from 2 to `most` and periods up to `longest`.
pub fn next_edge_pair(random: &mut Random, policy: u32, most: u32, longest: u32) -> (Table, Table) {
    loop {
        let n = random.small(2, most) as usize;
        let cores = random.small(1, (n as u32).min(16));
        let longest = random.pick(&[longest, longest, 1_000.min(longest), 30.min(longest)]);
        if let Some(pair) = edge_pair(&draw(random, policy, cores, n, longest)) {
            return pair;
        }
    }
}

/// Endless tables near the edge, under both policies in turn, with n to 32 and T to 1,000,000.
pub fn near_edge(seed: u64) -> impl Iterator<Item = Table> {
    let mut random = Random::new(seed);
    let mut policy = EDF;
    std::iter::from_fn(move || {
        policy = 1 - policy;
        Some(next_edge_pair(&mut random, policy, 32, LONGEST_PERIOD))
    })
    .flat_map(|(inside, outside)| [inside, outside])
}

/// A legal task with small times.
pub fn small_task(random: &mut Random, longest: u32) -> Task {
    let period = random.small(1, longest);
    let deadline = if random.once_in(2) { period } else { random.small(1, period) };
    let cost = random.small(1, deadline);
    let cost = if random.once_in(2) { cost } else { (cost / 2).max(1) };
    Task::of_four(u32::from(!random.once_in(4)), period, cost, deadline)
}

/// A random table with small times, of any kind.
pub fn small_table(random: &mut Random, most: u32, cores: u32, longest: u32) -> Table {
    let n = random.small(1, most);
    let tasks: Vec<Task> = (0..n).map(|_| small_task(random, longest)).collect();
    Table::in_places(random.small(1, cores), random.small(0, 1), &tasks)
}

// ---------------------------------------------------------------- tables that take many passes

/// How much a table is wanted: accepted ones with many passes first.
fn worth(table: &Table, wanted_accepted: bool) -> u32 {
    match force(table, textbook::bound_of) {
        Ok(answer) => 100 * u32::from(wanted_accepted) + answer.passes,
        Err(refusal) => 100 * u32::from(!wanted_accepted) + refusal.passes,
    }
}

/// Changes one number of one task and keeps the task legal.
fn nudge(random: &mut Random, table: &Table, longest: u32) -> Table {
    let mut next = table.clone();
    let at = random.between(0, table.tasks.len() as u64 - 1) as usize;
    let task = &mut next.tasks[at];
    let step = random.small(1, 1 + longest / 8);
    match random.small(0, 7) {
        0 => task.cost += step,
        1 => task.cost = task.cost.saturating_sub(step),
        2 => task.deadline += step,
        3 => task.deadline = task.deadline.saturating_sub(step),
        4 => task.period += step,
        5 => task.period = task.period.saturating_sub(step),
        6 => *task = Task { flag: task.flag, level: task.level, ..small_task(random, longest) },
        _ => task.deadline = task.period,
    }
    task.period = task.period.clamp(1, longest);
    task.deadline = task.deadline.clamp(1, task.period);
    task.cost = task.cost.clamp(1, task.deadline);
    next
}

/// Climbs towards many passes by small changes: such tables are rare at random.
pub fn climb(random: &mut Random, start: Table, accepted: bool, steps: u32, longest: u32) -> Table {
    let mut best = start;
    let mut value = worth(&best, accepted);
    for _ in 0..steps {
        let next = nudge(random, &best, longest);
        let worth = worth(&next, accepted);
        if worth >= value {
            best = next;
            value = worth;
        }
    }
    best
}
