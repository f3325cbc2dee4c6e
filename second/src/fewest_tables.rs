//! Tables for the search for the fewest cores: some worked out by hand, and some drawn of each kind. The
//! head's own core number is mostly far from the answer.

use crate::compare::bound_of;
use crate::fewest::{fewest, on_cores, Fewest};
use crate::forcing::force;
use crate::hand::{case_a, case_c, case_d, case_e, case_g, case_h, case_j, case_k, table};
use crate::plan::{Refusal, Table, EDF, FP, MOST_CORES, MOST_TASKS};
use crate::random::Random;
use crate::tables::{draw, edge_pair, small_table, small_task};
use std::collections::HashMap;
use std::sync::OnceLock;

pub const SEED: u64 = 505;

// ---------------------------------------------------------------- by hand

/// What is to be found: cores, forced count, passes and bounds; or place and passes of 14.
pub type Due = Result<(u32, u32, u32, Vec<u32>), (u32, u32)>;

pub struct Case {
    pub name: &'static str,
    pub table: Table,
    pub due: Due,
}

/// A case with the head's cores as they are.
fn case(name: &'static str, table: Table, due: Due) -> Case {
    Case { name, table, due }
}

/// n tasks that are all alike.
pub fn alike(policy: u32, head: u32, n: usize, task: (u32, u32, u32, char)) -> Table {
    table(policy, head, &vec![task; n])
}

const FULL: (u32, u32, u32, char) = (5, 5, 5, 'P');

/// Document 01's cases and small ones; tests/fewest.rs has the sums.
pub fn by_hand() -> Vec<Case> {
    let three = [(3, 1, 2, 'P'), (3, 2, 3, 'P'), (3, 2, 3, 'P')];
    let mut cases = vec![
        case("b", case_a(), Ok((1, 2, 3, vec![12, 17]))),
        case("b-far-head", on_cores(&case_a(), 16), Ok((1, 2, 3, vec![12, 17]))),
        case("c", case_c(), Ok((1, 0, 1, vec![4, 17]))),
        case("d", case_d(), Ok((2, 0, 1, vec![4, 9]))),
        case("e", case_e(), Ok((2, 0, 1, vec![4, 9]))),
        case("g", case_g(), Ok((2, 0, 1, vec![4, 4, 20]))),
        case("h", case_h(), Ok((3, 0, 1, vec![4, 4, 8]))),
        case("j", case_j(), Ok((2, 0, 1, vec![4, 4, 20]))),
        case("k", case_k('P'), Ok((1, 0, 1, vec![7]))),
        case("k-non-preemptive", on_cores(&case_k('N'), 9), Ok((1, 0, 1, vec![7]))),
        case("edf-one-core", table(EDF, 7, &[(4, 1, 4, 'P'), (3, 2, 3, 'P')]), Ok((1, 0, 1, vec![4, 3]))),
        case("all-forced-on-two", table(FP, 3, &three), Ok((2, 3, 4, vec![2, 3, 3]))),
    ];
    for n in [1, 2, 7, 8, 9, 15, 16] {
        for (policy, head) in [(EDF, 1), (FP, 16)] {
            cases.push(case("full", alike(policy, head, n, FULL), Ok((n as u32, 0, 1, vec![5; n]))));
        }
    }
    for head in [1, 8, 15, 16] {
        cases.push(case("one-too-many-fp", alike(FP, head, 17, FULL), Err((1, 18))));
        cases.push(case("one-too-many-edf", alike(EDF, head, 17, FULL), Err((1, 2))));
        cases.push(case("last-is-too-many", alike(FP, head, 17, (9, 1, 1, 'P')), Err((17, 18))));
        cases.push(case("given-too-many", alike(FP, head, 17, (5, 5, 5, 'N')), Err((1, 1))));
        cases.push(case("largest-too-many", alike(EDF, head, MOST_TASKS, FULL), Err((1, 2))));
    }
    cases
}

// ---------------------------------------------------------------- at random

/// A core number far from this one, or once in four any.
fn far(random: &mut Random, cores: u32) -> u32 {
    match random.small(0, 3) {
        0 => random.small(1, MOST_CORES),
        _ if cores <= 8 => random.small(cores + 7, MOST_CORES),
        _ => random.small(1, cores - 7),
    }
}

fn with_far_head(random: &mut Random, table: Table, cores: u32) -> Table {
    Table { cores: far(random, cores), ..table }
}

/// Two tables either side of the edge of acceptance with so many cores, with far heads.
pub fn edge(random: &mut Random, cores: u32, longest: u32) -> (Table, Table) {
    loop {
        let policy = random.small(0, 1);
        let n = random.small(cores + 1, (2 * cores + 4).min(MOST_TASKS as u32)) as usize;
        if let Some((inside, outside)) = edge_pair(&draw(random, policy, cores, n, longest)) {
            return (with_far_head(random, inside, cores), with_far_head(random, outside, cores));
        }
    }
}

/// Tables that need exactly so many cores, half of them only after forcing.
pub fn exactly(random: &mut Random, cores: u32, count: usize) -> Vec<Table> {
    let mut tables = Vec::new();
    while tables.len() < count {
        let (inside, _) = edge(random, cores, 200);
        let wants_forcing = tables.len() % 2 == 0;
        if let Ok(Fewest { cores: found, forcing }) = fewest(&inside, bound_of) {
            if found == cores && (forcing.forced > 0 || !wants_forcing) {
                tables.push(inside);
            }
        }
    }
    tables
}

/// Tables of 17 and more tasks that are refused at 16 cores; each pair of place and passes at most twice.
pub fn refused(random: &mut Random, count: usize) -> Vec<Table> {
    let mut tables = Vec::new();
    let mut seen: HashMap<(u32, u32), u32> = HashMap::new();
    while tables.len() < count {
        let table = if random.once_in(2) { edge(random, 16, 200).1 } else { heavy(random) };
        if let Err(Refusal { place, passes, .. }) = fewest(&table, bound_of) {
            let times = seen.entry((place, passes)).or_insert(0);
            *times += 1;
            if *times <= 2 {
                tables.push(table);
            }
        }
    }
    tables
}

/// 17 to 32 tasks, some of them with no time to spare.
fn heavy(random: &mut Random) -> Table {
    let n = random.small(17, MOST_TASKS as u32);
    let mut tasks: Vec<_> = (0..n).map(|_| small_task(random, 20)).collect();
    for task in &mut tasks {
        if random.once_in(2) {
            task.cost = task.deadline - random.small(0, (task.deadline - 1).min(2));
        }
    }
    Table::in_places(random.small(1, 12), random.small(0, 1), &tasks)
}

/// Tables where one more core changes which tasks are forced, and some are forced even then.
pub fn forced_otherwise(random: &mut Random, count: usize) -> Vec<Table> {
    let mut tables = Vec::new();
    while tables.len() < count {
        let table = if random.once_in(2) { small_table(random, 9, 16, 40) } else { edge_below(random) };
        let Ok(Fewest { cores, forcing }) = fewest(&table, bound_of) else { continue };
        let more = force(&on_cores(&table, (cores + 1).min(MOST_CORES)), bound_of);
        let marks_differ = more.as_ref().is_ok_and(|more| more.forced != forcing.forced);
        let still_forced = more.is_ok_and(|more| more.forced > 0) || tables.len() % 2 == 0;
        if forcing.forced > 0 && marks_differ && still_forced {
            tables.push(with_far_head(random, table, cores));
        }
    }
    tables
}

/// A table at the edge of a few cores.
fn edge_below(random: &mut Random) -> Table {
    let cores = random.small(1, 4);
    edge(random, cores, 100).0
}

/// Tables that one core serves, some of them only after forcing.
pub fn one_core(random: &mut Random, count: usize) -> Vec<Table> {
    let mut tables = exactly(random, 1, count / 2);
    while tables.len() < count {
        let table = small_table(random, 4, 16, 100);
        if force(&on_cores(&table, 1), bound_of).is_ok() {
            tables.push(with_far_head(random, table, 1));
        }
    }
    tables
}

/// The same list of tasks under every head.
fn every_head(random: &mut Random) -> Vec<Table> {
    let mut tables = Vec::new();
    for cores in [1, 3, 8, 16] {
        let (inside, outside) = edge(random, cores, 60);
        for head in 1..=MOST_CORES {
            tables.push(on_cores(&inside, head));
            tables.push(on_cores(&outside, head));
        }
    }
    tables
}

/// Some tables of each kind, drawn once.
pub fn kinds() -> &'static [Table] {
    static KINDS: OnceLock<Vec<Table>> = OnceLock::new();
    KINDS.get_or_init(|| {
        let mut random = Random::new(SEED);
        let mut tables = exactly(&mut random, 16, 24);
        for cores in 2..16 {
            tables.extend(exactly(&mut random, cores, 6));
        }
        tables.extend(one_core(&mut random, 20));
        tables.extend(refused(&mut random, 60));
        tables.extend(forced_otherwise(&mut random, 40));
        tables.extend(every_head(&mut random));
        tables
    })
}
