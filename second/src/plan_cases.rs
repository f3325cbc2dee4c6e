//! The plan cases: texts with the listing that the plan printer must write for each.

use crate::corpus;
use crate::forcing::force;
use crate::hand::many;
use crate::hunt::catches;
use crate::listing::listing;
use crate::plan::{read, write, Table, Task, EDF, FP, LONGEST_PERIOD};
use crate::random::Random;
use crate::slips::WRONG;
use crate::tables::{climb, draw, edge_pair, next_edge_pair, small_table};
use crate::{bound, textbook};

pub const SEED: u64 = 202;

/// All texts, in order; one that came before is left out.
pub fn cases() -> Vec<Vec<u8>> {
    let mut random = Random::new(SEED);
    let mut all = known();
    all.extend(aimed(&mut random));
    let mut tables = climbed(&mut random);
    tables.extend(forced(&mut random));
    tables.extend(refused(&mut random));
    tables.extend(edges(&mut random));
    tables.extend(kinds(&mut random));
    tables.extend(large(&mut random));
    all.extend(tables.iter().map(write));
    let mut seen = std::collections::HashSet::new();
    all.retain(|text| seen.insert(text.clone()));
    all
}

/// The listing for a text. The textbook iteration finds it; where the literal search is quick enough, it
/// must agree.
pub fn expected(text: &[u8]) -> String {
    let answer = listing(text, textbook::bound_of);
    let work = |table: &Table| table.tasks.iter().map(|task| task.deadline as u64).sum::<u64>();
    if read(text).is_ok_and(|table| work(&table) <= 20_000) {
        assert_eq!(answer, listing(text, bound::bound_of));
    }
    answer
}

/// Document 01's cases and the corpus.
fn known() -> Vec<Vec<u8>> {
    let mut plans = corpus::examples();
    plans.extend(corpus::good());
    plans.extend(corpus::bad());
    let mut texts: Vec<Vec<u8>> = plans.into_iter().map(|(_, text)| text).collect();
    texts.push(write(&many(31)));
    texts
}

/// For each wrong planner four random tables that give it away, two of them accepted.
fn aimed(random: &mut Random) -> Vec<Vec<u8>> {
    let mut texts = Vec::new();
    for wrong in WRONG {
        for accepted in [true, true, false, false] {
            let found = (0..20_000).find_map(|_| {
                let table = small_table(random, 5, 3, 24);
                (is_accepted(&table) == accepted && catches(&table, wrong.slip)).then_some(table)
            });
            texts.extend(found.map(|table| write(&table)));
        }
    }
    texts
}

fn is_accepted(table: &Table) -> bool {
    force(table, textbook::bound_of).is_ok()
}

/// A table inside the edge of acceptance, all tasks preemptive: the start of a climb.
fn start(random: &mut Random, policy: u32, cores: u32, n: usize, longest: u32) -> Table {
    loop {
        let mut drawn = draw(random, policy, cores, n, longest);
        drawn.flags.fill(1);
        if let Some((inside, _)) = edge_pair(&drawn) {
            return inside;
        }
    }
}

/// How many tasks, on how many cores, and how many steps of a climb.
const CLIMBS: [(usize, u32, u32); 5] =
    [(3, 1, 1_000), (4, 1, 2_000), (5, 2, 2_000), (8, 2, 2_000), (14, 3, 2_000)];

/// Tables that take many passes, accepted and refused.
fn climbed(random: &mut Random) -> Vec<Table> {
    let mut tables = Vec::new();
    for policy in [EDF, FP] {
        for (n, cores, steps) in CLIMBS {
            for (accepted, longest) in [(true, 60), (true, 400), (false, 60)] {
                let start = start(random, policy, cores, n, longest);
                tables.push(climb(random, start, accepted, steps, longest));
            }
        }
    }
    tables.push(climbed_and_stretched(random, 8_000));
    tables.push(climbed_and_stretched(random, 15_000));
    tables
}

/// A table that is accepted after forcing with all its times multiplied.
fn climbed_and_stretched(random: &mut Random, factor: u32) -> Table {
    loop {
        let start = start(random, FP, 2, 6, 60);
        let mut table = climb(random, start, true, 500, 60);
        for task in &mut table.tasks {
            task.period *= factor;
            task.cost *= factor;
            task.deadline *= factor;
        }
        if force(&table, textbook::bound_of).is_ok_and(|answer| answer.passes >= 3) {
            return table;
        }
    }
}

/// Small tables accepted after forcing, some with tasks given as non-preemptive.
fn forced(random: &mut Random) -> Vec<Table> {
    let mut tables = Vec::new();
    while tables.len() < 60 {
        let table = small_table(random, 7, 4, 40);
        if force(&table, textbook::bound_of).is_ok_and(|answer| answer.forced > 0) {
            tables.push(table);
        }
    }
    tables
}

/// Small tables refused with 14: each pair of place and passes at most twice.
fn refused(random: &mut Random) -> Vec<Table> {
    let mut tables = Vec::new();
    let mut seen = std::collections::HashMap::new();
    for _ in 0..40_000 {
        let table = small_table(random, 8, 3, 40);
        if let Err(refusal) = force(&table, textbook::bound_of) {
            let count = seen.entry((refusal.place, refusal.passes)).or_insert(0);
            *count += 1;
            if *count <= 2 {
                tables.push(table);
            }
        }
    }
    tables
}

/// How many tasks at most, the longest period, and how many pairs.
const EDGES: [(u32, u32, u32); 4] =
    [(5, 30, 12), (8, 1_000, 12), (16, LONGEST_PERIOD, 12), (32, LONGEST_PERIOD, 10)];

/// Pairs either side of the edge of acceptance, and accepted ones that forcing was needed for.
fn edges(random: &mut Random) -> Vec<Table> {
    let mut tables = Vec::new();
    for policy in [EDF, FP] {
        for (most, longest, pairs) in EDGES {
            for _ in 0..pairs {
                let (inside, outside) = next_edge_pair(random, policy, most, longest);
                tables.extend([inside, outside]);
            }
            for _ in 0..pairs {
                tables.push(edge_with_forcing(random, policy, most, longest));
            }
        }
    }
    tables
}

fn edge_with_forcing(random: &mut Random, policy: u32, most: u32, longest: u32) -> Table {
    loop {
        let (inside, _) = next_edge_pair(random, policy, most, longest);
        if force(&inside, textbook::bound_of).is_ok_and(|answer| answer.forced > 0) {
            return inside;
        }
    }
}

/// Tables of special kinds: all non-preemptive, no more tasks than cores, equal deadlines, every core count.
fn kinds(random: &mut Random) -> Vec<Table> {
    let mut tables = Vec::new();
    for count in 0..16 {
        let (inside, outside) = next_edge_pair(random, count % 2, 6, 60);
        tables.push(with_flags(inside, |_| 0));
        tables.push(with_flags(outside, |i| (i % 2) as u32));
        tables.push(few_tasks(random, count % 2));
        tables.push(equal_deadlines(random, count % 2));
        tables.push(on_cores(random, count + 1));
    }
    tables
}

fn with_flags(mut table: Table, flag: fn(usize) -> u32) -> Table {
    for (i, task) in table.tasks.iter_mut().enumerate() {
        task.flag = flag(i);
    }
    table
}

/// No more tasks than cores: each bound is C.
fn few_tasks(random: &mut Random, policy: u32) -> Table {
    let table = small_table(random, 5, 1, 100);
    let n = table.tasks.len() as u32;
    Table { policy, cores: random.small(n, 16), ..table }
}

/// All deadlines equal, costs small enough that some such tables pass.
fn equal_deadlines(random: &mut Random, policy: u32) -> Table {
    let (n, deadline) = (random.small(2, 5), random.small(6, 40));
    let mut tasks = Vec::new();
    for _ in 0..n {
        let cost = random.small(1, (3 * deadline / (2 * n)).max(1));
        tasks.push(Task::of_four(random.small(0, 1), random.small(deadline, 60), cost, deadline));
    }
    Table::in_places(random.small(1, 2), policy, &tasks)
}

/// A table at the edge on just this many cores.
fn on_cores(random: &mut Random, cores: u32) -> Table {
    loop {
        let (policy, n) = (random.small(0, 1), random.small(cores.max(2), cores + 4) as usize);
        if let Some((inside, _)) = edge_pair(&draw(random, policy, cores, n, 2_000)) {
            return inside;
        }
    }
}

/// The largest tables: 32 tasks and periods to 1,000,000, either side of the edge.
fn large(random: &mut Random) -> Vec<Table> {
    let mut tables = Vec::new();
    for (policy, cores) in [(EDF, 2), (FP, 2), (EDF, 8), (FP, 8), (FP, 16), (EDF, 16), (FP, 1), (EDF, 1)] {
        for _ in 0..3 {
            let pair = (0..50).find_map(|_| edge_pair(&draw(random, policy, cores, 32, LONGEST_PERIOD)));
            tables.extend(pair.into_iter().flat_map(|(inside, outside)| [inside, outside]));
        }
    }
    tables
}
