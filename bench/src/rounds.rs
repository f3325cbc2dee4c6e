//! The test of edition 2: a round of the archive beside a test of edition 1 of the same tables, and beside a
//! plain round of the second program.

use crate::clock::{in_turns, Side};
use crate::plans::{workloads, Plan};
use crate::sides::{self, Job, ROOM};
use second::edition2;
use second::plan::{Table, Task, EDF};

/// The plan with the most rounds known of its size: 400,000 of them, two tasks.
fn longest() -> Plan {
    let task = |period, cost, deadline| Task::of_four(1, period, cost, deadline);
    let tasks = vec![task(1_000_000, 399_998, 999_998), task(799_997, 199_999, 600_000)];
    Plan::of(&Table::in_places(1, EDF, &tasks))
}

/// The archive's test under edition 2: how many rounds it had.
fn archive(plan: &Plan) -> u32 {
    let (mut records, mut answer) = ([0; ROOM], [0; 16]);
    let Table { cores, policy, .. } = plan.table;
    eskihrum::flat::test_tasks_2(cores, policy, &plan.numbers, &mut records, &mut answer);
    answer[6]
}

fn row(name: &str, plans: &[Plan]) {
    let plain = |plan: &Plan| edition2::test(&plan.table, edition2::bound_of).rounds;
    let rounds: f64 = plans.iter().map(|plan| f64::from(archive(plan))).sum();
    for plan in plans {
        assert_eq!(archive(plan), plain(plan), "{name}: the rounds differ");
    }
    let first = |plan: &Plan| sides::archive(Job::Test, plan, &mut [0; ROOM]);
    let mut sides = [
        Side::new(|| plans.iter().for_each(|plan| _ = std::hint::black_box(archive(plan)))),
        Side::new(|| plans.iter().for_each(|plan| _ = std::hint::black_box(first(plan)))),
        Side::new(|| plans.iter().for_each(|plan| _ = std::hint::black_box(plain(plan)))),
    ];
    let times = in_turns(&mut sides);
    let count = plans.len() as f64;
    println!(
        "| {name} | {} | {:.1} | {:.2} | {:.3} | {:.3} | {:.2} | {:.1} |",
        plans.len(),
        rounds / count,
        times[0] / count,
        times[0] / rounds,
        times[1] / count,
        times[0] / rounds / (times[1] / count),
        times[2] / times[0]
    );
}

pub fn run() {
    println!(
        "| test, edition 2 | plans | rounds | archive | a round | edition 1 | round / edition 1 | plain |"
    );
    println!("|---|---|---|---|---|---|---|---|");
    row("400,000 rounds", &[longest()]);
    for (name, plans) in workloads() {
        if ["edge_", "full_", "typical_", "unbroken_"].iter().any(|part| name.starts_with(part)) {
            row(&name, &plans);
        }
    }
}
