//! Legal tables for the hunt: a first one, and small changes of it.

use second::plan::{Table, Task};
use second::random::Random;

/// Any legal task with a period up to `longest`; short ones and such with C = T are frequent.
fn any_task(random: &mut Random, longest: u32) -> Task {
    let period = match random.small(0, 3) {
        0 => random.small(1, 4.min(longest)),
        1 => longest,
        _ => second::tables::spread_period(random, longest.max(2)).min(longest),
    };
    let deadline = if random.once_in(3) { random.small(1, period) } else { period };
    let cost = match random.small(0, 3) {
        0 => 1,
        1 => deadline,
        _ => random.small(1, deadline),
    };
    Task::of_four(random.small(0, 1), period, cost, deadline)
}

/// A table of a few kinds of tasks, each several times: what is slow has that form. Half of these tables
/// are made to be slow.
pub fn first(random: &mut Random, policy: u32, cores: u32, n: usize, longest: u32) -> Table {
    let mut tasks: Vec<Task> = if random.once_in(2) {
        full_load(random, cores, n, longest)
    } else {
        let kinds: Vec<Task> = (0..random.small(1, 4)).map(|_| any_task(random, longest)).collect();
        (0..n).map(|_| random.pick(&kinds)).collect()
    };
    if random.once_in(2) {
        tasks.sort_by_key(|task| task.period);
    }
    Table::in_places(cores, policy, &tasks)
}

/// Short tasks that need all cores all the time, and light long ones beside them: their searches go through
/// all lengths in small steps.
fn full_load(random: &mut Random, cores: u32, n: usize, longest: u32) -> Vec<Task> {
    let period = random.small(2, 6);
    let cost = random.small(1, period);
    let flag = random.small(0, 1);
    let mut tasks = Vec::new();
    for _ in 0..(cores * period).div_ceil(cost) {
        tasks.push(Task::of_four(flag, period, cost, random.small(cost, period)));
    }
    tasks.resize(n, Task::of_four(random.small(0, 1), longest, 1, longest));
    tasks
}

/// One to three changes.
pub fn changed(random: &mut Random, table: &Table, longest: u32) -> Table {
    let mut next = table.clone();
    for _ in 0..random.small(1, 3) {
        change(random, &mut next, longest);
    }
    next
}

fn change(random: &mut Random, table: &mut Table, longest: u32) {
    let n = table.tasks.len();
    let (a, b) = (random.between(0, n as u64 - 1) as usize, random.between(0, n as u64 - 1) as usize);
    match random.small(0, 5) {
        0 => table.tasks.swap(a, b),
        1 => table.tasks[b] = table.tasks[a],
        2 => {
            let task = table.tasks[a];
            table.tasks[a.min(b)..=a.max(b)].fill(task);
        }
        3 => table.tasks[a] = any_task(random, longest),
        4 => {
            // All tasks of one kind alike.
            let kind = table.tasks[a];
            let mut new = kind;
            nudge(random, &mut new, longest);
            table.tasks.iter_mut().filter(|task| **task == kind).for_each(|task| *task = new);
        }
        _ => nudge(random, &mut table.tasks[a], longest),
    }
}

/// Changes one number of a task and keeps it legal.
fn nudge(random: &mut Random, task: &mut Task, longest: u32) {
    let step = random.pick(&[1, 1, 1, 2, 10, longest / 50, longest / 5]);
    match random.small(0, 11) {
        0 => task.period += step,
        1 => task.period = task.period.saturating_sub(step),
        2 => task.cost += step,
        3 => task.cost = task.cost.saturating_sub(step),
        4 => task.deadline += step,
        5 => task.deadline = task.deadline.saturating_sub(step),
        6 => task.flag = 1 - task.flag,
        7 => task.deadline = task.period,
        8 => task.deadline = task.cost,
        9 => (task.cost, task.deadline) = (task.period, task.period),
        10 => task.cost = 1,
        _ => task.period = task.period.saturating_mul(2),
    }
    task.period = task.period.clamp(1, longest);
    task.deadline = task.deadline.clamp(1, task.period);
    task.cost = task.cost.clamp(1, task.deadline);
}

/// The same table with its long tasks `by` times as long: C with T, or, for a light task, T and D alone.
pub fn stretched(table: &Table, by: u32, from: u32, longest: u32) -> Table {
    let mut next = table.clone();
    for task in next.tasks.iter_mut().filter(|task| task.period >= from) {
        let light = 100 * task.cost < task.period;
        let length = |time: u32| (time * by).min(longest);
        task.period = length(task.period);
        task.deadline = length(task.deadline).min(task.period);
        task.cost = if light { task.cost } else { length(task.cost).min(task.deadline) };
    }
    next
}
