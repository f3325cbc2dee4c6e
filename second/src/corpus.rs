//! The plans of the directories `examples` and `corpus`, named by what they show.

use crate::hand::{case_a, case_c, lettered, many, table};
use crate::letter_cases::{eleven_of_letters, lowered, lowered_part, Lowered};
use crate::plan::{line, write, Table, EDF, FP};

/// A file name without its ending, and the text.
pub type Plan = (String, Vec<u8>);

/// Document 01's lettered cases.
pub fn examples() -> Vec<Plan> {
    let mut plans: Vec<Plan> = Vec::new();
    for (name, table) in lettered() {
        plans.push((name.to_string(), write(&table)));
    }
    plans.push(("l".to_string(), Vec::new()));
    plans
}

fn named(tables: Vec<(&str, Table)>) -> Vec<Plan> {
    tables.into_iter().map(|(name, table)| (name.to_string(), write(&table))).collect()
}

/// Plans that are accepted.
pub fn good() -> Vec<Plan> {
    let mut plans = named(catching());
    plans.extend(named(borders()));
    plans.extend(named(many_passes()));
    plans.extend(lower_case());
    plans
}

/// Document 01's plan with its letters lowered, and a plan of letters with each second one lowered.
fn lower_case() -> Vec<Plan> {
    let (a, letters) = (write(&case_a()), write(&eleven_of_letters()));
    let text = |name: &str, text: Vec<u8>| (name.to_string(), text);
    vec![
        text("lower-case", lowered(&a, Lowered::All)),
        text("lower-case-last-digit", lowered_part(&a, 71, 72)),
        text("mixed-case", lowered(&letters, Lowered::Odd)),
    ]
}

/// Small tables that give wrong planners away; corpus/README.md says which.
pub fn catching() -> Vec<(&'static str, Table)> {
    vec![
        ("first-m-not-largest", table(FP, 1, &[(8, 1, 5, 'P'), (5, 1, 3, 'P'), (11, 2, 11, 'N')])),
        ("two-candidates-one-core", table(FP, 1, &[(3, 1, 3, 'P'), (9, 3, 9, 'P'), (14, 3, 14, 'P')])),
        ("two-candidates-two-cores", table(FP, 2, &[(3, 1, 2, 'P'), (3, 2, 3, 'P'), (3, 2, 3, 'P')])),
        ("edf-cap-of-non-preemptive", table(EDF, 1, &[(2, 1, 2, 'N'), (2, 1, 2, 'P')])),
        ("two-forced-at-once", table(EDF, 2, &[(3, 2, 3, 'P'), (3, 1, 3, 'N'), (2, 1, 2, 'P')])),
        ("edf-later-adds-no-work", table(EDF, 2, &[(2, 1, 2, 'N'), (1, 1, 1, 'N')])),
        ("edf-later-blocks-by-difference", table(EDF, 2, &[(2, 2, 2, 'N'), (1, 1, 1, 'N')])),
        ("edf-equal-deadlines", table(EDF, 2, &[(2, 2, 2, 'N'), (2, 1, 2, 'N')])),
        ("edf-cap-counts-part-of-a-job", table(EDF, 1, &[(4, 1, 4, 'P'), (3, 2, 3, 'P')])),
        ("edf-cap-of-own-deadline", table(EDF, 1, &[(3, 1, 3, 'P'), (2, 1, 2, 'P')])),
        ("fp-place-not-deadline", table(FP, 1, &[(4, 1, 3, 'P'), (2, 1, 2, 'P')])),
        ("fp-preemptive-does-not-block", table(FP, 1, &[(3, 1, 1, 'N'), (3, 2, 3, 'P')])),
        ("total-of-rounded-loads", table(EDF, 3, &[(3, 1, 3, 'P'), (3, 1, 3, 'P'), (3, 1, 3, 'P')])),
    ]
}

/// Plans with numbers at the ends of their ranges.
fn borders() -> Vec<(&'static str, Table)> {
    let whole = (1_000_000, 1_000_000, 1_000_000, 'P');
    vec![
        ("smallest", table(EDF, 1, &[(1, 1, 1, 'P')])),
        ("longest-period-full", table(EDF, 1, &[whole])),
        ("longest-period-beside-shortest", table(FP, 2, &[(1, 1, 1, 'P'), whole])),
        ("most-cores", table(FP, 16, &[(12, 4, 11, 'P'), (24, 9, 18, 'N')])),
        ("most-tasks", many(32)),
        ("most-tasks-and-cores-edf", most_tasks_edf()),
        ("all-given-non-preemptive", table(FP, 1, &[(12, 4, 12, 'N'), (24, 9, 18, 'N')])),
        ("nothing-forced", case_c()),
    ]
}

/// 32 tasks on 16 cores under EDF.
fn most_tasks_edf() -> Table {
    let tasks: Vec<_> = (1..=32).map(|i| (1_000 + i, 250 + i, 1_000 + i, 'P')).collect();
    table(EDF, 16, &tasks)
}

/// Accepted plans that need many passes: with p preemptive tasks there are at most p + 1.
pub fn many_passes() -> Vec<(&'static str, Table)> {
    vec![
        ("four-tasks-five-passes", table(FP, 1, &four_tasks())),
        ("six-tasks-seven-passes", table(FP, 2, &six_tasks())),
        ("eight-tasks-nine-passes", table(FP, 2, &eight_tasks())),
        ("edf-five-tasks-five-passes", table(EDF, 2, &edf_five_tasks())),
        ("edf-six-tasks-six-passes", table(EDF, 2, &edf_six_tasks())),
    ]
}

fn four_tasks() -> [(u32, u32, u32, char); 4] {
    [(9, 1, 6, 'P'), (9, 1, 6, 'P'), (20, 1, 8, 'P'), (7, 2, 5, 'P')]
}

fn six_tasks() -> [(u32, u32, u32, char); 6] {
    [(4, 1, 4, 'P'), (13, 6, 12, 'P'), (17, 1, 10, 'P'), (21, 1, 12, 'P'), (18, 1, 7, 'P'), (15, 3, 11, 'P')]
}

fn eight_tasks() -> [(u32, u32, u32, char); 8] {
    [
        (40, 1, 25, 'P'),
        (21, 4, 19, 'P'),
        (38, 3, 23, 'P'),
        (18, 1, 18, 'P'),
        (36, 1, 21, 'P'),
        (40, 8, 27, 'P'),
        (21, 1, 21, 'P'),
        (35, 9, 28, 'P'),
    ]
}

fn edf_five_tasks() -> [(u32, u32, u32, char); 5] {
    [(5, 2, 5, 'P'), (7, 1, 6, 'P'), (11, 7, 11, 'P'), (13, 1, 8, 'P'), (7, 1, 7, 'P')]
}

fn edf_six_tasks() -> [(u32, u32, u32, char); 6] {
    [
        (30, 1, 30, 'P'),
        (21, 14, 21, 'P'),
        (15, 1, 15, 'P'),
        (22, 1, 21, 'P'),
        (11, 2, 11, 'P'),
        (12, 6, 11, 'P'),
    ]
}

/// Plans that are refused, the number first in the name. 13 cannot come from a text.
pub fn bad() -> Vec<Plan> {
    let mut plans = bad_lines();
    plans.extend(bad_fields());
    plans.extend(named(without_bound()));
    plans
}

/// Refusals 1 to 4 and 12.
fn bad_lines() -> Vec<Plan> {
    let b = write(&case_a());
    let text = |name: &str, text: &[u8]| (name.to_string(), text.to_vec());
    let replaced = |name: &str, at: usize, byte: u8| {
        let mut other = b.clone();
        other[at] = byte;
        (name.to_string(), other)
    };
    let crlf = String::from_utf8_lossy(&b).replace('\n', "\r\n");
    vec![
        text("01-empty", b""),
        text("01-head-cut", &b[..10]),
        text("01-task-line-missing", &b[..42]),
        text("01-last-line-end-missing", &b[..72]),
        text("02-carriage-returns", crlf.as_bytes()),
        replaced("02-space-in-task", 20, b' '),
        replaced("02-colon-after-nine", 11, b':'),
        replaced("02-at-sign-before-a", 40, b'@'),
        replaced("02-backquote-before-lower-a", 71, b'`'),
        replaced("02-letter-g", 9, b'G'),
        replaced("02-lower-letter-g", 8, b'g'),
        replaced("02-control-byte-like-a-digit", 40, 0x11),
        replaced("03-lower-case-sum-off", 71, b'b'),
        replaced("02-zero-byte", 0, 0),
        replaced("03-sum-off-by-one", 40, b'2'),
        replaced("03-digits-damaged", 25, b'5'),
        text("04-head-is-a-task", &[line(&[2, 1, 1, 2]), b[11..].to_vec()].concat()),
        text("04-task-is-a-head", &[b[..42].to_vec(), line(&[1; 14])].concat()),
        text("12-byte-after", &[&b[..], b"\n"].concat()),
        text("12-second-plan", &[&b[..], &b[..]].concat()),
        text("12-task-line-too-many", &[&b[..], &b[42..]].concat()),
    ]
}

/// Refusals 5 to 11, with right sums.
fn bad_fields() -> Vec<Plan> {
    let head = |cores: u32, policy: u32| Table { cores, policy, ..case_a() };
    let second = |period: u32, cost: u32, deadline: u32| {
        table(FP, 1, &[(12, 4, 12, 'P'), (period, cost, deadline, 'P')])
    };
    let mut flag = case_a();
    flag.tasks[1].flag = 2;
    let mut none = case_a();
    none.tasks.clear();
    named(vec![
        ("05-cores-zero", head(0, 1)),
        ("05-cores-17", head(17, 1)),
        ("06-policy-2", head(1, 2)),
        ("07-no-tasks", none),
        ("07-tasks-33", many(33)),
        ("08-flag-2", flag),
        ("09-period-zero", second(0, 9, 18)),
        ("09-period-1000001", second(1_000_001, 9, 18)),
        ("10-deadline-zero", second(24, 9, 0)),
        ("10-deadline-beyond-period", second(24, 9, 25)),
        ("11-cost-zero", second(24, 0, 18)),
        ("11-cost-beyond-deadline", second(24, 19, 18)),
    ])
}

/// Refusal 14.
fn without_bound() -> Vec<(&'static str, Table)> {
    vec![
        ("14-step-fourteen-not-done", table(EDF, 1, &[(2, 1, 2, 'P'), (2, 1, 1, 'P')])),
        ("14-lowest-place", table(EDF, 1, &[(1, 1, 1, 'P'), (1, 1, 1, 'P')])),
        ("14-given-non-preemptive-stays", table(FP, 1, &[(12, 4, 11, 'P'), (24, 9, 18, 'N')])),
        ("14-third-task", table(FP, 1, &[(10, 3, 10, 'P'), (10, 3, 10, 'P'), (10, 2, 6, 'P')])),
        ("14-ends-late", table(FP, 1, &[(4, 1, 4, 'P'), (8, 1, 8, 'P'), (9, 8, 8, 'P')])),
    ]
}
