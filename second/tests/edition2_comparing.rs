//! The comparison under both editions agrees with this program itself, and finds the wrong versions.

use second::compare::{flat_tasks, FORCE, TEST};
use second::edition2_compare::*;
use second::edition2_slips::{Slip, SAME, WRONG, WRONG_LONG};
use second::edition2_wrong::planner;
use second::hand::{case_a, case_e};
use second::word::COMPARED;

#[test]
fn this_program_agrees_with_itself() {
    assert!(short(&own(), 1).unwrap() > 20_000);
}

#[test]
fn what_is_said() {
    let (own, numbers) = (own(), flat_tasks(&case_a().tasks));
    let mut records = [7; 9];
    let said = own.list(TEST, 2, [1, 1], &numbers, &mut records);
    assert_eq!(said, Said { yes: true, rounds: 3, ..Said::default() });
    assert_eq!(records, [1, 0, 4, 1, 0, 17, 7, 7, 7]);
    let said = own.list(FORCE, 1, [1, 1], &numbers, &mut records);
    let word = if COMPARED { 3 } else { 0 };
    assert_eq!(said, Said { yes: true, forced: 2, passes: 3, word, ..Said::default() });
    assert_eq!(records, [0, 1, 12, 0, 1, 17, 7, 7, 7]);
    let said = own.list(FORCE, 2, [1, 0], &flat_tasks(&case_e().tasks), &mut records);
    assert_eq!(said, Said { number: 15, place: 1, passes: 3, ..Said::default() });
    assert_eq!(records, [0, 1, 12, 0, 1, 17, 7, 7, 7]);
    assert_eq!(own.list(FORCE, 2, [1, 0], &numbers, &mut [0; 3]).number, 13);
    assert_eq!(own.text(TEST, 2, b"", &mut [0; 3]), Said { number: 1, place: 1, ..Said::default() });
}

/// Whether the comparison finds the slip.
fn found(slip: Slip) -> bool {
    let planner = planner(slip);
    made(&planner).and_then(|_| drawn(&planner, 1, 700)).is_err()
}

#[test]
fn wrong_versions_are_found() {
    for &slip in WRONG {
        assert!(found(slip), "{slip:?}");
    }
}

#[test]
fn few_rounds_are_found_where_many_are_needed() {
    for &slip in WRONG_LONG {
        assert!(long(&planner(slip)).is_err(), "{slip:?}");
    }
}

/// The program without a slip, and slips that change nothing.
#[test]
fn what_changes_nothing_is_not_found() {
    for &slip in SAME.iter().chain(&[Slip::Right]) {
        assert!(!found(slip), "{slip:?}");
    }
}

/// Takes a minute or so; this is the run for a planner that is linked in.
#[test]
#[ignore]
fn everything_agrees_with_itself() {
    println!("{} calls", everything(&own(), 1).unwrap());
}
