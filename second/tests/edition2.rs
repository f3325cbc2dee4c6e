//! Sums of the second edition done by hand, each by the search over every length, by the textbook iteration
//! and by leaps. Tasks are (T, C, D, flag); S stands for the slacks at the start of a round.

use second::edition2::{force, listing, tested, BoundOf};
use second::edition2_cases::{known, long, longest, Case};
use second::hand::*;
use second::plan::{write, Table, EDF, FP};
use second::{edition2, edition2_bound, edition2_textbook, forcing, textbook};

const WAYS: [BoundOf; 3] =
    [edition2_bound::bound_of, edition2_textbook::bound_of, edition2_textbook::bound_by_leaps];

/// The bounds of the table as given, 0 for none, and the rounds of that test.
fn as_given(table: &Table, expected: &[u32], rounds: u32) {
    for way in WAYS {
        let answer = edition2::test(table, way);
        let bounds: Vec<u32> = answer.records.iter().map(|record| record.bound).collect();
        assert_eq!((bounds, answer.rounds), (expected.to_vec(), rounds));
        assert_eq!(answer.yes, !expected.contains(&0));
        for (record, task) in answer.records.iter().zip(&table.tasks) {
            assert_eq!((record.flag, record.forced), (task.flag, 0));
        }
    }
}

/// Final flags as P and N, bounds, passes, and the rounds of the last test.
fn accepted(table: &Table, flags: &str, expected: &[u32], passes: u32, rounds: u32) {
    for way in WAYS {
        let answer = force(table, way).unwrap();
        let bounds: Vec<u32> = answer.records.iter().map(|record| record.bound).collect();
        assert_eq!((bounds, answer.passes, answer.rounds), (expected.to_vec(), passes, rounds));
        let shown: String = answer.records.iter().map(|r| if r.flag == 1 { 'P' } else { 'N' }).collect();
        assert_eq!(shown, flags);
        let marks: Vec<u32> = answer.records.iter().map(|record| record.forced).collect();
        let changed = table.tasks.iter().zip(&answer.records).map(|(task, r)| u32::from(task.flag != r.flag));
        assert_eq!(marks, changed.collect::<Vec<u32>>());
        assert_eq!(answer.forced, marks.iter().sum::<u32>());
    }
}

fn refused_15(table: &Table, place: u32, passes: u32) {
    for way in WAYS {
        let refusal = force(table, way).unwrap_err();
        assert_eq!((refusal.number, refusal.place, refusal.passes), (15, place, passes));
    }
}

/// What edition 1 says: refused 14 with this place and these passes.
fn edition_1_refuses(table: &Table, place: u32, passes: u32) {
    let refusal = forcing::force(table, textbook::bound_of).unwrap_err();
    assert_eq!((refusal.number, refusal.place, refusal.passes), (14, place, passes));
}

/// EDF, one core, (5,1,1,P) (8,2,8,P): edition 1 refuses, edition 2 accepts as given.
/// Round 1, S = 0 0. Task 1 has l = 1 alone, q = 1: W_2(1) is of 1 + 8 - 2 = 7, so 2; E(1,2) = min(2, 1), so
///   1; 1 + 1 is above 1, none. Task 2, q = l - 1, E(2,1) = 1 + min(1, 3) = 2. l = 2: W_1 = min(1, 2) = 1,
///   q = 1, 2 + 1 is above 2. l = 3: W_1 = 1, q = 2, 2 + 1 = 3. Bound 3. Task 1 keeps S = 0, task 2 gets
///   8 - 3 = 5.
/// Round 2, S = 0 5. Task 1: W_2(1) is of 1 + 8 - 5 - 2 = 2, so 2; E(1,2) = min(2, max(0, 1 - 5)) = 0;
///   1 + 0 = 1. Bound 1, S = 1 - 1 = 0. Task 2 again 3. No slack changes: 2 rounds, and the bound of task 1
///   is there in the last of them alone.
/// Edition 1 forces task 1: E(1,2) = 1, 1 + min(2, 1, 1) is above 1. Task 2 has a bound. 14, place 1, two
///   passes.
#[test]
fn newly_accepted() {
    let table = table(EDF, 1, &[(5, 1, 1, 'P'), (8, 2, 8, 'P')]);
    as_given(&table, &[1, 3], 2);
    accepted(&table, "PP", &[1, 3], 1, 2);
    edition_1_refuses(&table, 1, 2);
    let last = tested(&table, &[1, 1], edition2::bound_of);
    assert_eq!(last.slacks, [0, 5]);
}

/// EDF, one core, (10,2,5,N) (20,4,20,N): a difference above 0 decides.
/// Round 1, S = 0 0. Task 1, l = 1 to 4: W_2(l) is of l + 16, so 4 (at l = 4 it is 4 + 0); E(1,2) =
///   min(4, 5) = 4; the term is l, the difference max(0, min(4, 3, l) - l) = 0; 1 + l is above l. None.
///   Task 2: E(2,1) = 2 * 2 + min(2, 0) = 4; W_1 is of l + 3: 2 for l to 7. l = 1, 2: terms 1, 2, too much.
///   l = 3: 1 + 2 = 3. Bound 3 + 4 - 1 = 6, S = 14.
/// Round 2, S = 0 14. Task 1: W_2(l) is of l + 2, so 3, 4, 4, 4; E(1,2) = min(4, max(0, 5 - 14)) = 0: the
///   term is 0, the difference min(W_2, 3, l) - 0 = 1, 2, 3, 3. l = 4: 1 + 3 = 4. Bound 4 + 2 - 1 = 5, S = 0.
///   Task 2 again 6. No slack changes: 2 rounds. Without the difference task 1 would have bound 2.
#[test]
fn a_difference_above_0() {
    let table = table(EDF, 1, &[(10, 2, 5, 'N'), (20, 4, 20, 'N')]);
    as_given(&table, &[5, 6], 2);
    accepted(&table, "NN", &[5, 6], 1, 2);
    edition_1_refuses(&table, 1, 1);
    assert_eq!(edition2_bound::largest_difference(&table, &[0, 0], &[0, 14], 0), 3);
    assert_eq!(edition2_bound::largest_difference(&table, &[0, 0], &[0, 0], 0), 0);
}

/// EDF, one core, (7,2,5,P) (2,1,2,N): the lowest-numbered preemptive task is forced though it has a bound.
/// First test, P N. Round 1, S = 0 0. Task 1, q = l - 1: W_2(l) is of l + 1, so 2, 2, 3, 3 for l = 2 to 5;
///   with q the terms are 1, 2, 3, 3: l = 5, 2 + 3 = 5. Bound 5, S = 0. Task 2, l = 1, 2: W_1(l) is of l + 3,
///   so 2; E(2,1) = min(2, 2) = 2; terms 1, 2. None. No slack changes: 1 round. Task 1 is forced.
/// Second test, N N. Round 1, S = 0 0. Task 1, l = 1 to 4: E(1,2) = 2 + min(1, 1) = 3; W_2 = 1, 2, 2, 3;
///   terms 1, 2, 2: l = 3, 1 + 2 = 3. Bound 3 + 2 - 1 = 4, S = 1. Task 2 as before; the difference
///   max(0, min(2, 1, l) - min(2, 2, l)) is 0. None.
/// Round 2, S = 1 0. Task 1 again 4. Task 2: W_1(l) is of l + 2, so 2; E(2,1) = min(2, 2 - 1) = 1; terms 1,
///   1, differences 0. l = 2: 1 + 1 = 2. Bound 2, S = 0. No slack changes: 2 rounds.
#[test]
fn the_lowest_is_forced_though_it_has_a_bound() {
    let table = table(EDF, 1, &[(7, 2, 5, 'P'), (2, 1, 2, 'N')]);
    as_given(&table, &[5, 0], 1);
    accepted(&table, "NN", &[4, 2], 2, 2);
    edition_1_refuses(&table, 2, 1);
}

/// EDF, one core, (1,1,1,P) (1,1,1,P). l = 1, q = 1, W = 1, E = 1: 1 + 1 is above 1, preemptive or not. Both
/// are forced after the first test, and none is left after the second: 15, place 1, two passes.
#[test]
fn fifteen() {
    let table = table(EDF, 1, &[(1, 1, 1, 'P'), (1, 1, 1, 'P')]);
    as_given(&table, &[0, 0], 1);
    refused_15(&table, 1, 2);
    edition_1_refuses(&table, 1, 2);
    assert_eq!(listing(&write(&table), edition2::bound_of), "refused 15 place 1 passes 2\n");
}

/// Document 01's case e, EDF, (12,4,12,P) (24,9,18,P), is not helped by its slack.
/// Round 1: none and 17, as edition 1 has it; S = 0 1. Round 2. Task 1, q = l - 3: W_2(l) is of l + 8, so 9;
///   E(1,2) = min(9, 12 - 1) = 9; the term is q for l to 12; none. Task 2 again 17. 2 rounds; 1 is forced.
/// Second test, N P. Task 1, l = 1 to 9: E(1,2) = 9, the term is l. None. Task 2, q = l - 8, without E:
///   W_1(l) is of l + 8; 9 + W_1 is at most l nowhere: at 16, 17, 18 W_1 = 8, 9, 10. None. 1 round; 2 is
///   forced.
/// Third test, N N. Task 2, l = 1 to 10: E(2,1) = 4 + min(4, 6) = 8; l = 9: W_1 is of 17, so 8; 1 + 8 = 9.
///   Bound 17, S = 1. Task 1: E(1,2) = 9 in both rounds. None. 15, place 1, three passes.
#[test]
fn case_f_under_edition_2() {
    as_given(&case_e(), &[0, 17], 2);
    as_given(&table(EDF, 1, &[(12, 4, 12, 'N'), (24, 9, 18, 'P')]), &[0, 0], 1);
    as_given(&table(EDF, 1, &[(12, 4, 12, 'N'), (24, 9, 18, 'N')]), &[0, 17], 2);
    refused_15(&case_e(), 1, 3);
}

/// Document 01's case a under edition 2: FP, (12,4,12,P) (24,9,18,P).
/// Round 1, S = 0 0: 4 and none. S = 8 0. Round 2. Task 2, q = l - 8: W_1(l) is of l + 12 - 8 - 4 = l; for
///   l = 9 to 12 it is 4, then 5, 6, 7, 8 for l = 13 to 16, and 8 for l = 17. With q the line asks for 10,
///   11, 12, 13 at l = 9 to 12, for 14, 15, 16, 17 at l = 13 to 16, each above l; l = 17: 9 + 8 = 17.
///   Bound 17, S = 1.
/// Round 3, S = 8 1. Task 1 has no higher task: 4. Task 2 again 17. 3 rounds.
#[test]
fn case_a_under_edition_2() {
    as_given(&case_a(), &[4, 17], 3);
    accepted(&case_a(), "PP", &[4, 17], 1, 3);
    let expected = "plan FP cores 1 tasks 2\n\
                    task 1 P given bound 4 deadline 12 load 334\n\
                    task 2 P given bound 17 deadline 18 load 375\n\
                    total load 709 forced 0 passes 1 rounds 3\n";
    assert_eq!(listing(&write(&case_a()), edition2::bound_of), expected);
}

/// One task alone gets S = D - C in round 1, and keeps it in round 2; with C = D there is one round.
#[test]
fn one_task_alone() {
    for flag in ['P', 'N'] {
        for policy in [EDF, FP] {
            as_given(&table(policy, 1, &[(10, 7, 9, flag)]), &[7], 2);
            as_given(&table(policy, 1, &[(10, 9, 9, flag)]), &[9], 1);
        }
    }
}

#[test]
fn refusals_of_the_listing() {
    let mut bad = case_a();
    bad.tasks[1].period = 0;
    assert_eq!(listing(&write(&bad), edition2::bound_of), "refused 9 place 3\n");
    assert_eq!(listing(b"", edition2::bound_of), "refused 1 place 1\n");
    assert_eq!(listing(&write(&case_d()), edition2::bound_of), "refused 15 place 1 passes 2\n");
}

fn says_what_is_written(cases: impl Iterator<Item = Case>) {
    for case in cases {
        let says = match force(&case.table, edition2::bound_of) {
            Ok(answer) => (0, answer.forced, answer.passes),
            Err(refusal) => (refusal.number, refusal.place, refusal.passes),
        };
        let rounds = edition2::test(&case.table, edition2::bound_of).rounds;
        assert_eq!((says, rounds), (case.says, case.rounds), "{}", case.name);
    }
}

/// The tables of the cases say what is written beside them.
#[test]
fn the_cases() {
    says_what_is_written(known().into_iter().chain(long()));
}

#[test]
#[ignore]
fn the_cases_with_many_rounds() {
    says_what_is_written(longest().into_iter());
}
