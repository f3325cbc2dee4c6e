//! The comparison of the fewest cores agrees with this program itself, and finds the wrong searches.

use second::compare::flat_tasks;
use second::fewest_compare::*;
use second::fewest_tables::alike;
use second::fewest_wrong::{Slip, Wrong, SAME, WRONG, WRONG_OUTSIDE};
use second::hand::{case_a, case_e};
use second::plan::{write, EDF, FP};
use second::word::COMPARED;

#[test]
fn this_program_agrees_with_itself() {
    assert!(short(&Own, 1).unwrap() > 8_000);
}

#[test]
fn what_is_said() {
    let numbers = flat_tasks(&case_a().tasks);
    let mut records = [7; 9];
    let said = Own.list([16, FP], &numbers, &mut records);
    let word = if COMPARED { 3 } else { 0 };
    assert_eq!(said, Said { cores: 1, forced: 2, passes: 3, word, ..Said::default() });
    assert_eq!(records, [0, 1, 12, 0, 1, 17, 7, 7, 7]);
    let said = Own.text(&write(&case_e()), &mut records);
    assert_eq!(said, Said { cores: 2, forced: 0, passes: 1, ..Said::default() });
    assert_eq!(records, [1, 0, 4, 1, 0, 9, 7, 7, 7]);
    assert_eq!(Own.list([17, FP], &numbers, &mut records), Said { number: 5, ..Said::default() });
    assert_eq!(Own.list([16, FP], &numbers, &mut [0; 3]), Said { number: 13, ..Said::default() });
    assert_eq!(Own.text(b"", &mut [0; 3]), Said { number: 1, place: 1, ..Said::default() });
    let many = alike(EDF, 1, 17, (5, 5, 5, 'P'));
    let mut records = [9; 60];
    let due = Said { number: 14, place: 1, passes: 2, ..Said::default() };
    assert_eq!(Own.list([1, EDF], &flat_tasks(&many.tasks), &mut records), due);
    assert_eq!(Own.text(&write(&many), &mut records), due);
    assert_eq!(records, [9; 60]);
}

#[test]
fn wrong_searches_are_found_by_the_made_tables() {
    for &slip in WRONG {
        assert!(made(&Wrong(slip)).is_err(), "{slip:?}");
    }
}

#[test]
fn wrong_checks_are_found_by_damages() {
    for &slip in WRONG_OUTSIDE {
        assert!(damages(&Wrong(slip), 1, 300).is_err(), "{slip:?}");
    }
}

/// The search without a slip, and slips that change nothing.
#[test]
fn what_changes_nothing_is_not_found() {
    for &slip in SAME.iter().chain(&[Slip::Right]) {
        let searcher = Wrong(slip);
        let found = made(&searcher).and_then(|_| drawn(&searcher, 1, 300));
        assert!(found.is_ok(), "{slip:?}: {found:?}");
        assert!(damages(&searcher, 1, 300).is_ok(), "{slip:?}");
    }
}

/// Takes a minute or so; this is the run for a search that is linked in.
#[test]
#[ignore]
fn everything_agrees_with_itself() {
    println!("{} calls", everything(&Own, 1).unwrap());
}
