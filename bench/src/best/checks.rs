//! The refusals 5 to 11: what a head and a task must be. 0 stands for no fault.

use second::plan::{LONGEST_PERIOD, MOST_CORES, MOST_TASKS};

pub fn head_fault(cores: u32, policy: u32, n: usize) -> u32 {
    if cores.wrapping_sub(1) >= MOST_CORES {
        5
    } else if policy > 1 {
        6
    } else if n.wrapping_sub(1) >= MOST_TASKS {
        7
    } else {
        0
    }
}

/// One look decides that a task is right, since nearly all are; the order is asked for only where one is not.
#[inline]
pub fn task_fault(flag: u32, period: u32, cost: u32, deadline: u32) -> u32 {
    let right =
        (flag <= 1) & (1 <= cost) & (cost <= deadline) & (deadline <= period) & (period <= LONGEST_PERIOD);
    if right {
        0
    } else {
        first_fault(flag, period, deadline)
    }
}

#[cold]
fn first_fault(flag: u32, period: u32, deadline: u32) -> u32 {
    if flag > 1 {
        8
    } else if !(1..=LONGEST_PERIOD).contains(&period) {
        9
    } else if !(1..=period).contains(&deadline) {
        10
    } else {
        11
    }
}
