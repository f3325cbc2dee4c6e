//! Document 01's "Sums done by hand", as tables with the answers that the document states.

use crate::plan::{Table, Task, EDF, FP};

/// A table in the document's order of fields: (T, C, D, flag), P for preemptive and N for non-preemptive.
pub fn table(policy: u32, cores: u32, tasks: &[(u32, u32, u32, char)]) -> Table {
    let mut list = Vec::new();
    for &(period, cost, deadline, flag) in tasks {
        list.push(Task::of_four(u32::from(flag == 'P'), period, cost, deadline));
    }
    Table::in_places(cores, policy, &list)
}

pub fn case_a() -> Table {
    table(FP, 1, &[(12, 4, 12, 'P'), (24, 9, 18, 'P')])
}

pub fn case_c() -> Table {
    table(FP, 1, &[(12, 4, 11, 'P'), (24, 9, 18, 'P')])
}

pub fn case_d() -> Table {
    table(FP, 1, &[(12, 4, 11, 'P'), (24, 9, 18, 'N')])
}

pub fn case_e() -> Table {
    table(EDF, 1, &[(12, 4, 12, 'P'), (24, 9, 18, 'P')])
}

pub fn case_g() -> Table {
    table(FP, 2, &[(10, 4, 10, 'P'), (10, 4, 10, 'P'), (20, 8, 20, 'P')])
}

pub fn case_h() -> Table {
    table(FP, 2, &[(10, 4, 10, 'P'), (10, 4, 10, 'P'), (20, 8, 19, 'P')])
}

pub fn case_j() -> Table {
    table(FP, 3, &[(10, 4, 10, 'P'), (10, 4, 10, 'P'), (20, 8, 20, 'P')])
}

pub fn case_k(flag: char) -> Table {
    table(FP, 1, &[(10, 7, 9, flag)])
}

/// n tasks that differ, so that a lost or doubled line shows. The first has the longest period.
pub fn many(n: usize) -> Table {
    let mut tasks = vec![(1_000_000, 1, 1_000_000, 'P')];
    for i in 1..n as u32 {
        tasks.push((1_000 * i, i, 900 * i, if i % 2 == 0 { 'P' } else { 'N' }));
    }
    tasks.truncate(n);
    table(FP, 2, &tasks)
}

/// The lettered cases as plan tables with their names, in order; l is the empty text and not among them.
/// The plan printer forces, so that a and b, e and f, h and i are the same plan.
pub fn lettered() -> Vec<(&'static str, Table)> {
    vec![
        ("a", case_a()),
        ("b", case_a()),
        ("c", case_c()),
        ("d", case_d()),
        ("e", case_e()),
        ("f", case_e()),
        ("g", case_g()),
        ("h", case_h()),
        ("i", case_h()),
        ("j", case_j()),
        ("k", case_k('P')),
        ("k-non-preemptive", case_k('N')),
    ]
}
