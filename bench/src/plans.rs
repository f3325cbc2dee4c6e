//! The workloads: files of plans that are joined with nothing between.

use second::plan::{read, write, Table};
use std::io;
use std::path::{Path, PathBuf};

/// Bytes of a head line and of a task line, each with its 0A.
const HEAD: usize = 11;
const TASK: usize = 31;

/// A plan in the forms in which it is handed over.
pub struct Plan {
    pub text: Vec<u8>,
    pub table: Table,
    /// Four numbers to a task.
    pub numbers: Vec<u32>,
}

impl Plan {
    /// The plan's lines, and four numbers to a task, have the places as levels.
    pub fn of(table: &Table) -> Plan {
        let table = Table::in_places(table.cores, table.policy, &table.tasks);
        Plan { text: write(&table), numbers: numbers(&table), table }
    }
}

/// Four numbers to a task: flag, T, C, D.
pub fn numbers(table: &Table) -> Vec<u32> {
    table.tasks.iter().flat_map(|task| [task.flag, task.period, task.cost, task.deadline]).collect()
}

/// The folder of the workloads.
pub fn folder() -> PathBuf {
    PathBuf::from(env!("CARGO_MANIFEST_DIR")).join("plans")
}

/// Every workload with its name, in the order of the names, shorter ones first where only a number differs.
pub fn workloads() -> Vec<(String, Vec<Plan>)> {
    let entries = std::fs::read_dir(folder()).expect("the workloads are beside the program");
    let mut paths: Vec<PathBuf> = entries.map(|entry| entry.expect("an entry can be read").path()).collect();
    let stem =
        |path: &PathBuf| path.file_stem().expect("a workload has a name").to_string_lossy().into_owned();
    paths.sort_by_key(|path| {
        let name = stem(path);
        (name.trim_end_matches(|digit: char| digit.is_ascii_digit()).to_string(), name.len(), name)
    });
    let plans = |path: &PathBuf| split(&std::fs::read(path).expect("a workload can be read"));
    paths.iter().map(|path| (stem(path), plans(path))).collect()
}

/// The head says how many task lines follow.
fn split(joined: &[u8]) -> Vec<Plan> {
    let mut plans = Vec::new();
    let mut left = joined;
    while !left.is_empty() {
        let digits = std::str::from_utf8(&left[6..8]).expect("a head is text");
        let n = usize::from_str_radix(digits, 16).expect("a head has its count in hexadecimal");
        let (text, rest) = left.split_at(HEAD + n * TASK);
        plans.push(Plan::of(&read(text).expect("a plan of a workload is legal")));
        left = rest;
    }
    plans
}

/// Writes a workload.
pub fn save(path: &Path, tables: &[Table]) -> io::Result<()> {
    let joined: Vec<u8> = tables.iter().flat_map(write).collect();
    std::fs::write(path, joined)
}
