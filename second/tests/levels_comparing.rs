//! The comparison of tables with levels agrees with this program itself, and finds the wrong planners.

use second::compare::Compared;
use second::levels_compare::*;
use second::levels_slips::{Slip, SAME, WRONG};
use second::levels_wrong::Wrong;

#[test]
fn this_program_agrees_with_itself() {
    let calls = short(&Own, 1).unwrap();
    assert!(calls > 40_000, "{calls}");
}

/// Whether the comparison finds the slip.
fn found(slip: Slip) -> Compared {
    let wrong = Wrong(slip);
    let calls = damages(&wrong, 1, 400)? + made(&wrong)?;
    Ok(calls + drawn(&wrong, 1, 200)?)
}

#[test]
fn wrong_planners_are_found() {
    for &slip in WRONG {
        assert!(found(slip).is_err(), "{slip:?}");
    }
}

/// The planner without a slip, and what changes nothing.
#[test]
fn what_changes_nothing_is_not_found() {
    for &slip in SAME.iter().chain(&[Slip::Right]) {
        let found = found(slip);
        assert!(found.is_ok(), "{slip:?}: {found:?}");
    }
}

/// Takes some minutes; this is the run for a planner that is linked in.
#[test]
#[ignore]
fn everything_agrees_with_itself() {
    println!("{} calls", everything(&Own, 1).unwrap());
}
