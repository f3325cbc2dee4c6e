//! Document 01's "Sums done by hand", each by the literal search and by the textbook iteration.

use second::forcing::{force, test, BoundOf};
use second::hand::*;
use second::listing::listing;
use second::plan::{raised, read, write, Table, EDF, FP};
use second::{bound, textbook};

const WAYS: [BoundOf; 2] = [bound::bound_of, textbook::bound_of];

/// The bounds of the table tested as given; 0 for none. The answer is yes exactly if none is 0.
fn as_given(table: &Table, expected: &[u32]) {
    for way in WAYS {
        let (yes, records) = test(table, way);
        let bounds: Vec<u32> = records.iter().map(|record| record.bound).collect();
        assert_eq!(bounds, expected);
        assert_eq!(yes, !expected.contains(&0));
        for (record, task) in records.iter().zip(&table.tasks) {
            assert_eq!((record.flag, record.forced), (task.flag, 0));
        }
    }
}

fn accepted(table: &Table, expected: &[u32], forced: u32, passes: u32) {
    for way in WAYS {
        let answer = force(table, way).unwrap();
        let bounds: Vec<u32> = answer.records.iter().map(|record| record.bound).collect();
        assert_eq!((bounds, answer.forced, answer.passes), (expected.to_vec(), forced, passes));
    }
}

fn refused_14(table: &Table, place: u32, passes: u32) {
    for way in WAYS {
        let refusal = force(table, way).unwrap_err();
        assert_eq!((refusal.number, refusal.place, refusal.passes), (14, place, passes));
    }
}

fn refused(text: &[u8], number: u32, place: u32) {
    let refusal = read(text).unwrap_err();
    assert_eq!((refusal.number, refusal.place, refusal.passes), (number, place, 0));
}

#[test]
fn a_and_b_on_one_core() {
    as_given(&case_a(), &[4, 0]);
    accepted(&case_a(), &[12, 17], 2, 3);
}

#[test]
fn c_a_shorter_deadline_lowers_another_bound() {
    as_given(&case_c(), &[4, 17]);
    accepted(&case_c(), &[4, 17], 0, 1);
}

#[test]
fn d_with_task_2_given_as_non_preemptive() {
    refused_14(&case_d(), 1, 2);
}

#[test]
fn e_and_f_under_edf() {
    as_given(&case_e(), &[0, 17]);
    refused_14(&case_e(), 1, 3);
}

#[test]
fn g_h_i_on_two_cores() {
    as_given(&case_g(), &[4, 4, 20]);
    as_given(&case_h(), &[4, 4, 0]);
    refused_14(&case_h(), 2, 4);
}

#[test]
fn j_with_no_more_tasks_than_cores_each_bound_is_its_cost() {
    as_given(&case_j(), &[4, 4, 8]);
}

#[test]
fn k_one_task_alone_has_its_cost_as_bound() {
    for policy in [EDF, FP] {
        for flag in ['P', 'N'] {
            for (t, c, d) in [(10, 7, 9), (1, 1, 1), (1_000, 1, 1_000), (1_000, 1_000, 1_000)] {
                let alone = table(policy, 1, &[(t, c, d, flag)]);
                as_given(&alone, &[c]);
                accepted(&alone, &[c], 0, 1);
            }
        }
    }
}

#[test]
fn l_the_empty_input() {
    refused(b"", 1, 1);
    assert_eq!(listing(b"", bound::bound_of), "refused 1 place 1\n");
}

#[test]
fn largest_tables_are_read() {
    let most = many(32);
    assert_eq!(most.tasks[0].period, 1_000_000);
    assert_eq!(write(&most).len(), 1_003);
    assert_eq!(read(&write(&most)), Ok(most));
}

#[test]
fn just_outside_the_ranges() {
    refused(&write(&many(33)), 7, 1);
    refused(&write(&table(FP, 1, &[(1_000_001, 1, 1, 'P')])), 9, 2);
    refused(&write(&table(FP, 1, &[(10, 0, 10, 'P')])), 11, 2);
    refused(&write(&table(FP, 1, &[(10, 1, 11, 'P')])), 10, 2);
}

/// Document 01's last case as document 02 has it.
#[test]
fn a_lower_case_digit_is_read() {
    let text = String::from_utf8(write(&case_a())).unwrap();
    assert!(text.contains("CA"));
    for other in [text.to_lowercase(), text.replace("CA", "Ca"), text.replace("FB", "fB")] {
        assert_ne!(other, text);
        assert_eq!(read(other.as_bytes()), Ok(case_a()));
        assert_eq!(raised(other.as_bytes()), text.as_bytes());
        for way in WAYS {
            assert_eq!(listing(other.as_bytes(), way), listing(text.as_bytes(), way));
        }
    }
    refused(text.replace("CA", "Cg").as_bytes(), 2, 3);
    refused(text.replace("CA", "C`").as_bytes(), 2, 3);
    refused(text.replace("CA", "Cb").as_bytes(), 3, 3);
}

#[test]
fn the_listing_of_the_document() {
    let text = "01010102FB\n02010000000C000000040000000CE1\n0201000000180000000900000012CA\n";
    assert_eq!(read(text.as_bytes()), Ok(case_a()));
    assert_eq!(write(&case_a()), text.as_bytes());
    let expected = "plan FP cores 1 tasks 2\n\
                    task 1 N forced bound 12 deadline 12 load 334\n\
                    task 2 N forced bound 17 deadline 18 load 375\n\
                    total load 709 forced 2 passes 3\n";
    for way in WAYS {
        assert_eq!(listing(text.as_bytes(), way), expected);
    }
}

#[test]
fn refusals_as_the_document_prints_them() {
    let mut bad = case_a();
    bad.tasks[1].period = 0;
    assert_eq!(listing(&write(&bad), bound::bound_of), "refused 9 place 3\n");
    assert_eq!(listing(&write(&case_d()), bound::bound_of), "refused 14 place 1 passes 2\n");
}
