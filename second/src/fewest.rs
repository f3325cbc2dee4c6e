//! The fewest cores from 1 to 16 with which forcing accepts, under edition 1 (document 02, wish 5).

use crate::forcing::{force, BoundOf, Forced};
use crate::plan::{check_list, check_text, Refusal, Table, Task, MOST_CORES};

#[derive(Clone, Debug, PartialEq, Eq)]
pub struct Fewest {
    pub cores: u32,
    /// What forcing answers with just these cores.
    pub forcing: Forced,
}

/// The table on another number of cores.
pub fn on_cores(table: &Table, cores: u32) -> Table {
    Table { cores, ..table.clone() }
}

/// The numbers of cores are tried in turn, and the first that forcing accepts with is the answer. Where there
/// is none, the refusal is the one found at 16 cores. The table's own core number is not looked at.
pub fn fewest(table: &Table, bound_of: BoundOf) -> Result<Fewest, Refusal> {
    for cores in 1..MOST_CORES {
        if let Ok(forcing) = force(&on_cores(table, cores), bound_of) {
            return Ok(Fewest { cores, forcing });
        }
    }
    let forcing = force(&on_cores(table, MOST_CORES), bound_of)?;
    Ok(Fewest { cores: MOST_CORES, forcing })
}

/// On cores, policy and a list of tasks, with room for so many records: 5, 6, 7, then 8 to 11 task by task,
/// then 13, then 14. The core number is checked and otherwise not used.
pub fn fewest_of_list(
    cores: u32,
    policy: u32,
    tasks: &[Task],
    room: usize,
    bound_of: BoundOf,
) -> Result<Fewest, Refusal> {
    fewest(&check_list(cores, policy, tasks, room)?, bound_of)
}

/// On a plan text: reading's own refusals, then 13, then 14.
pub fn fewest_of_text(text: &[u8], room: usize, bound_of: BoundOf) -> Result<Fewest, Refusal> {
    fewest(&check_text(text, room)?, bound_of)
}
