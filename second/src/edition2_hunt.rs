//! Tables for the second edition: a climb by mutation towards many rounds, tables of one kind, and tables on
//! either side of the edge of acceptance.

use crate::edition2::{bound_of, force, round, slacks_after, tested, to_be_forced, Tested};
use crate::edition2_bound::largest_difference;
use crate::edition2_textbook::bound_by_leaps;
use crate::plan::{Table, Task, LONGEST_PERIOD};
use crate::random::Random;
use crate::tables::{draw, scaled, small_table, small_task, spread_period};
use crate::{forcing, textbook};

// ---------------------------------------------------------------- many rounds

/// The rounds of the test of a table as given, counted no further than `most`.
pub fn rounds_up_to(table: &Table, most: u32) -> u32 {
    let flags = table.flags();
    let mut slacks = vec![0; table.tasks.len()];
    for rounds in 1..most {
        let next = slacks_after(table, &slacks, &round(table, &flags, &slacks, bound_of));
        if next == slacks {
            return rounds;
        }
        slacks = next;
    }
    most
}

/// Changes one or two numbers by steps of any order of magnitude, or a flag, and keeps the table legal.
pub fn mutated(random: &mut Random, table: &Table, longest: u32) -> Table {
    let mut next = table.clone();
    for _ in 0..random.small(1, 2) {
        let at = random.between(0, table.tasks.len() as u64 - 1) as usize;
        let task = &mut next.tasks[at];
        let step = if random.once_in(2) { 1 } else { spread_period(random, 2 + longest / 2) };
        match random.small(0, 8) {
            0 => task.cost += step,
            1 => task.cost = task.cost.saturating_sub(step),
            2 => task.deadline += step,
            3 => task.deadline = task.deadline.saturating_sub(step),
            4 => task.period += step,
            5 => task.period = task.period.saturating_sub(step),
            6 => *task = Task { level: task.level, ..small_task(random, longest) },
            7 => task.flag = 1 - task.flag,
            _ => task.deadline = task.period,
        }
        task.period = task.period.clamp(1, longest);
        task.deadline = task.deadline.clamp(1, task.period);
        task.cost = task.cost.clamp(1, task.deadline);
    }
    next
}

/// Climbs towards many rounds: a change is kept where it costs no round.
pub fn climb(random: &mut Random, start: Table, steps: u32, longest: u32, most: u32) -> (u32, Table) {
    let mut best = start;
    let mut value = rounds_up_to(&best, most);
    for _ in 0..steps {
        let next = mutated(random, &best, longest);
        let rounds = rounds_up_to(&next, most);
        if rounds >= value {
            best = next;
            value = rounds;
        }
    }
    (value, best)
}

/// The most rounds of so many climbs, each from a table of n tasks.
pub fn most_rounds(random: &mut Random, start: [u32; 4], climbs: u32, steps: u32) -> (u32, Table) {
    let [policy, cores, n, longest] = start;
    let mut best = (0, Table { cores, policy, tasks: Vec::new() });
    for _ in 0..climbs {
        let tasks: Vec<Task> = (0..n).map(|_| small_task(random, longest)).collect();
        let start = Table::in_places(cores, policy, &tasks);
        let found = climb(random, start, steps, longest, 2 * LONGEST_PERIOD);
        if found.0 > best.0 {
            best = found;
        }
    }
    best
}

/// The most rounds of the table with all times multiplied and then one of them moved by about the factor:
/// where slacks grow by 1 in a round, they then may grow by 1 again, and not by the factor.
pub fn stretched(table: &Table, factor: u32, most: u32) -> (u32, Table) {
    let factor = factor as i64;
    let mut best = (0, table.clone());
    for at in 0..3 * table.tasks.len() {
        for step in [0, factor - 1, 1 - factor, factor + 1, -factor - 1, 1, -1, factor / 2, -factor / 2] {
            let mut next = table.clone();
            for (i, task) in next.tasks.iter_mut().enumerate() {
                let moved = |time: u32, field: usize| {
                    let step = if at == 3 * i + field { step } else { 0 };
                    (time as i64 * factor + step).max(1) as u32
                };
                task.period = moved(task.period, 0).min(LONGEST_PERIOD);
                task.deadline = moved(task.deadline, 1).min(task.period);
                task.cost = moved(task.cost, 2).min(task.deadline);
            }
            let rounds = rounds_up_to(&next, most);
            if rounds > best.0 {
                best = (rounds, next);
            }
        }
    }
    best
}

// ---------------------------------------------------------------- kinds

/// What a table shows under edition 2.
#[derive(Clone, Copy, Debug, PartialEq, Eq)]
pub enum Kind {
    /// Both editions accept.
    BothAccept,
    /// Edition 1 refuses, edition 2 accepts.
    NewlyAccepted,
    /// 15.
    Refused,
    /// A difference is above 0 in the last round of a test.
    Difference,
    /// A test failed though every preemptive task had a bound; accepted in the end.
    LowestForced,
    /// A task has no bound until the last round.
    BoundInLastRound,
    /// At least so many rounds in the last test.
    Rounds(u32),
}

/// The tests of a forcing, each with its flags.
pub fn tests_of(table: &Table) -> Vec<(Vec<u32>, Tested)> {
    let mut flags = table.flags();
    let mut tests = Vec::new();
    loop {
        let last = tested(table, &flags, bound_by_leaps);
        tests.push((flags.clone(), last.clone()));
        let next = to_be_forced(&flags, &last.bounds);
        if last.passes() || next.is_empty() {
            return tests;
        }
        next.into_iter().for_each(|k| flags[k] = 0);
    }
}

/// Whether the table with these tests is of this kind.
pub fn is(table: &Table, tests: &[(Vec<u32>, Tested)], kind: Kind) -> bool {
    let end = &tests[tests.len() - 1].1;
    let old = || forcing::force(table, textbook::bound_of).is_ok();
    match kind {
        Kind::BothAccept => end.passes() && old(),
        Kind::NewlyAccepted => end.passes() && !old(),
        Kind::Refused => !end.passes(),
        Kind::Difference => tests.iter().any(|(flags, last)| difference(table, flags, last)),
        Kind::LowestForced => end.passes() && tests.iter().any(|(flags, last)| lowest_forced(flags, last)),
        Kind::BoundInLastRound => end.passes() && bound_in_last_round(table, &tests[tests.len() - 1]),
        Kind::Rounds(least) => end.passes() && end.rounds >= least,
    }
}

fn difference(table: &Table, flags: &[u32], last: &Tested) -> bool {
    (0..flags.len()).any(|k| largest_difference(table, flags, &last.slacks, k) > 0)
}

fn lowest_forced(flags: &[u32], last: &Tested) -> bool {
    !last.passes() && to_be_forced(flags, &last.bounds).iter().any(|&k| last.bounds[k].is_some())
}

/// Such a task has no slack to gain: its bound is D, though a round before it had none.
fn bound_in_last_round(table: &Table, (flags, last): &(Vec<u32>, Tested)) -> bool {
    let mut slacks = vec![0; flags.len()];
    let mut bounds = last.bounds.clone();
    for _ in 1..last.rounds {
        bounds = round(table, flags, &slacks, bound_by_leaps);
        slacks = slacks_after(table, &slacks, &bounds);
    }
    bounds.iter().any(|bound| bound.is_none())
}

/// Small tables: so many of each kind, out of so many draws.
pub fn of_kinds(random: &mut Random, mut wanted: Vec<(Kind, u32)>, draws: u32) -> Vec<Table> {
    let mut tables = Vec::new();
    for _ in 0..draws {
        let table = small_table(random, 5, 3, 16);
        let tests = tests_of(&table);
        let is_wanted = |(kind, left): &&mut (Kind, u32)| *left > 0 && is(&table, &tests, *kind);
        if let Some((_, left)) = wanted.iter_mut().find(is_wanted) {
            *left -= 1;
            tables.push(table);
        }
    }
    tables
}

// ---------------------------------------------------------------- edges

/// Two tables either side of the edge of acceptance by edition 2, the accepted one first.
pub fn edge_pair(random: &mut Random, most: u32, longest: u32) -> (Table, Table) {
    loop {
        let n = random.small(2, most) as usize;
        let (policy, cores) = (random.small(0, 1), random.small(1, (n as u32).min(16)));
        let drawn = draw(random, policy, cores, n, longest);
        let accepted = |scale: u64| force(&scaled(&drawn, scale), bound_of).is_ok();
        let (mut low, mut high) = (1, 2 * 65_536);
        if !accepted(low) || accepted(high) {
            continue;
        }
        while high - low > 1 {
            let middle = (low + high) / 2;
            if accepted(middle) {
                low = middle;
            } else {
                high = middle;
            }
        }
        return (scaled(&drawn, low), scaled(&drawn, high));
    }
}
