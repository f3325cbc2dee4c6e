//! The header's promises on document 01's cases, each in a few lines. A quick run that catches the wrong
//! headers of checks/wrong.

use eskihrum_header::{advice, counted, numbers, older_plan, older_tasks, plan, reserved, tasks, text};
use eskihrum_header::{places, plan_2, tasks_2, write_changed, write_tasks, Record, Task, Told};

const B: &[u8] = include_bytes!("../../../examples/b.plan");
/// The longest plan: 32 tasks in 1,003 bytes.
const LONGEST: &[u8] = include_bytes!("../../../corpus/good/most-tasks.plan");
const I: &[u8] = include_bytes!("../../../examples/i.plan");
const EDF: u32 = 0;
const FP: u32 = 1;

/// Cases a and b: (12,4,12,P) (24,9,18,P), as flag, T, C, D.
const TASKS: [Task; 2] = [[1, 12, 4, 12], [1, 24, 9, 18]];
/// Case c: task 1 has D = 11.
const C: [Task; 2] = [[1, 12, 4, 11], [1, 24, 9, 18]];
/// What stands in the caller's list before a call; no answer holds it.
const KEPT: Record = [7, 8, 9];

const A_TESTED: [Record; 2] = [[1, 0, 4], [1, 0, 0]];
const B_FORCED: [Record; 2] = [[0, 1, 12], [0, 1, 17]];

fn given(yes: u32, forced: u32, passes: u32, records: u32) -> Told {
    Told { yes, forced, passes, records, ..Told::default() }
}

fn refused(number: u32, place: u32, passes: u32) -> Told {
    Told { number, place, passes, ..Told::default() }
}

#[test]
fn a_test_tests() {
    for by_text in [true, false] {
        let mut room = [KEPT; 3];
        let told = if by_text { plan(false, B, &mut room) } else { tasks(false, 1, FP, &TASKS, &mut room) };
        assert_eq!(told, given(0, 0, 0, 2));
        assert_eq!(room, [A_TESTED[0], A_TESTED[1], KEPT]);
    }
    let mut room = [KEPT; 2];
    assert_eq!(tasks(false, 1, FP, &C, &mut room), given(1, 0, 0, 2));
    assert_eq!(room, [[1, 0, 4], [1, 0, 17]]);
}

#[test]
fn forcing_forces() {
    for by_text in [true, false] {
        let mut room = [KEPT; 3];
        let told = if by_text { plan(true, B, &mut room) } else { tasks(true, 1, FP, &TASKS, &mut room) };
        assert_eq!(told, Told { word: 0b11, ..given(1, 2, 3, 2) });
        assert_eq!(room, [B_FORCED[0], B_FORCED[1], KEPT]);
    }
}

/// A 1 for each non-preemptive task, bit 0 for task 1: here as given, of three tasks that pass.
#[test]
fn the_word_is_in_order() {
    let list = [[0, 100, 1, 50], [1, 100, 1, 60], [1, 100, 1, 70]];
    let told = tasks(true, 1, FP, &list, &mut [KEPT; 3]);
    assert_eq!(told, Told { word: 0b001, ..given(1, 0, 1, 3) });
}

/// Under the second edition case b passes as sent, in three rounds; case f ends in 15, and i is accepted.
#[test]
fn the_second_edition_has_its_rounds() {
    let mut room = [KEPT; 3];
    assert_eq!(plan_2(false, B, &mut room), (given(1, 0, 0, 2), 3));
    assert_eq!(room, [[1, 0, 4], [1, 0, 17], KEPT]);
    assert_eq!(plan_2(true, B, &mut room), (given(1, 0, 1, 2), 3));
    assert_eq!(tasks_2(false, [1, EDF], &TASKS, &mut room), (given(0, 0, 0, 2), 2));
    assert_eq!(tasks_2(true, [1, EDF], &TASKS, &mut room), (refused(15, 1, 3), 0));
    assert_eq!(plan_2(true, I, &mut room), (given(1, 0, 1, 3), 3));
    assert_eq!(plan_2(true, I, &mut room[..2]), (refused(13, 0, 0), 0));
    assert_eq!(tasks_2(true, [17, FP], &TASKS, &mut room), (refused(5, 0, 0), 0));
}

#[test]
fn every_argument_arrives() {
    let mut room = [KEPT; 3];
    assert_eq!(tasks(true, 1, EDF, &TASKS, &mut room), refused(14, 1, 3));
    assert_eq!(plan(true, I, &mut room), refused(14, 2, 4));
    assert_eq!(tasks(false, 1, FP, &[TASKS[0], [1, 24, 0, 18]], &mut room), refused(11, 2, 0));
    assert_eq!(tasks(false, 17, FP, &TASKS, &mut room), refused(5, 0, 0));
    assert_eq!(tasks(true, 1, 2, &TASKS, &mut room), refused(6, 0, 0));
    assert_eq!(room, [KEPT; 3]);
    assert_eq!(tasks(false, 2, EDF, &TASKS, &mut room), given(1, 0, 0, 2));
    for force in [false, true] {
        assert_eq!(plan(force, &B[..B.len() - 1], &mut room), refused(1, 3, 0));
        assert_eq!(plan(force, &[B, b"\n"].concat(), &mut room), refused(12, 4, 0));
        assert_eq!(plan(force, &[LONGEST, b"\n"].concat(), &mut [KEPT; 32]), refused(12, 34, 0));
    }
}

#[test]
fn lists_end_where_the_caller_says() {
    let many = [[1, 1_000_000, 1, 1_000_000]; 32];
    let mut list = [KEPT; 80];
    for room in [0, 1, 20, 31] {
        for force in [false, true] {
            assert_eq!(plan(force, LONGEST, &mut list[..room]), refused(13, 0, 0));
            assert_eq!(tasks(force, 1, FP, &many, &mut list[..room]), refused(13, 0, 0));
        }
    }
    assert_eq!(list, [KEPT; 80]);
    assert_eq!(tasks(false, 1, FP, &TASKS[..1], &mut list[..1]), given(1, 0, 0, 1));
    assert_eq!(list[1..], [KEPT; 79]);
}

/// 32 forced in 33 passes, and a refusal at task 32 after 33: rust/tests/promises.rs has the sums.
#[test]
fn the_largest_counts_arrive_whole() {
    let mut accepted = [[1, 1_000_000, 1, 34]; 32];
    accepted[0] = [1, 33, 1, 33];
    accepted[31] = [1, 1_000_000, 3, 35];
    let told = tasks(true, 1, FP, &accepted, &mut [KEPT; 32]);
    assert_eq!(told, Told { word: u32::MAX, ..given(1, 32, 33, 32) });
    assert_eq!(older_tasks(true, 1, FP, &accepted.concat(), &mut [7; 96]), given(1, 32, 33, 0));
    let too_much = [[1, 1_000_000, 1, 31]; 32];
    assert_eq!(tasks(true, 1, FP, &too_much, &mut [KEPT; 32]), refused(14, 32, 33));
    assert_eq!(older_tasks(true, 1, FP, &too_much.concat(), &mut [7; 96]), refused(14, 32, 33));
}

/// Cases a and b as plans: document 01's lines, and those of the same table with both flags 0.
const A_TEXT: &[u8] = b"01010102FB\n02010000000C000000040000000CE1\n0201000000180000000900000012CA\n";
const B_TEXT: &[u8] = b"01010102FB\n02000000000C000000040000000CE2\n0200000000180000000900000012CB\n";

/// The text in the middle, the bytes around it, and the end place; 16 where one byte is missing.
#[test]
fn writers_write() {
    for (text, by_text) in [(A_TEXT, false), (B_TEXT, true)] {
        let run = |buffer: &mut [u8], from| match by_text {
            true => write_changed(A_TEXT, buffer, from),
            false => write_tasks(1, FP, &TASKS, buffer, from),
        };
        let mut buffer = [b'#'; 80];
        assert_eq!(run(&mut buffer, 3), (given(1, 0, 0, 0), 76));
        assert_eq!(buffer[..], [b"###", text, b"####"].concat());
        assert_eq!(run(&mut [0; 73], 0), (given(1, 0, 0, 0), 73));
        let mut buffer = [b'#'; 80];
        for (room, from) in [(72, 0), (75, 3), (0, 0), (80, 80), (80, 81), (80, usize::MAX)] {
            assert_eq!(run(&mut buffer[..room], from), (refused(16, 0, 0), 0));
        }
        assert_eq!(buffer, [b'#'; 80]);
    }
}

#[test]
fn writers_refuse() {
    let mut buffer = [b'#'; 80];
    assert_eq!(write_tasks(17, FP, &TASKS, &mut buffer, 0), (refused(5, 0, 0), 0));
    assert_eq!(write_tasks(1, 2, &TASKS, &mut buffer, 0), (refused(6, 0, 0), 0));
    assert_eq!(write_tasks(1, FP, &[], &mut buffer, 99), (refused(7, 0, 0), 0));
    assert_eq!(write_tasks(1, FP, &[TASKS[0]; 33], &mut buffer, 0), (refused(7, 0, 0), 0));
    assert_eq!(write_tasks(1, EDF, &[TASKS[0], [1, 24, 0, 18]], &mut buffer, 0), (refused(11, 2, 0), 0));
    assert_eq!(write_changed(&B[..B.len() - 1], &mut buffer, 0), (refused(1, 3, 0), 0));
    assert_eq!(write_changed(I, &mut buffer, 99), (refused(14, 2, 4), 0));
    assert_eq!(buffer, [b'#'; 80]);
    assert_eq!(places(7, 0), (7, LONGEST.len()));
    assert_eq!(places(1, 2).0, (2 << 32) + 1);
}

/// A list of no length may be NULL, on every side.
#[test]
fn nothing_may_be_null() {
    assert_eq!(write_tasks(1, FP, &TASKS, &mut [], 0), (refused(16, 0, 0), 0));
    assert_eq!(write_changed(b"", &mut [], 0), (refused(1, 1, 0), 0));
    for force in [false, true] {
        assert_eq!(plan(force, b"", &mut []), refused(1, 1, 0));
        assert_eq!(tasks(force, 1, FP, &[], &mut []), refused(7, 0, 0));
        assert_eq!(tasks(force, 1, FP, &TASKS, &mut []), refused(13, 0, 0));
    }
}

/// A count that is far too large is refused, and does not wrap round to a small one.
#[test]
fn counts_do_not_wrap() {
    let many = [[1, 1_000_000, 1, 1_000_000]; 33];
    let mut room = [KEPT; 34];
    for force in [false, true] {
        for n in [33, 34, usize::MAX / 4 + 2, usize::MAX / 4 + 3, usize::MAX] {
            assert_eq!(counted(force, 1, FP, &many, n, &mut room, 34), refused(7, 0, 0));
        }
        for large in [40, usize::MAX / 3 + 1, usize::MAX / 3 + 2, usize::MAX] {
            let told = counted(force, 16, FP, &many[..32], 32, &mut room[..32], large);
            assert_eq!((told.yes, told.records), (1, 32));
        }
    }
    assert_eq!(room[32..], [KEPT; 2]);
}

#[test]
fn the_older_calls_are_as_they_were() {
    let mut numbers = [7; 7];
    assert_eq!(older_plan(true, B, &mut numbers), given(1, 2, 3, 0));
    assert_eq!(numbers, [0, 1, 12, 0, 1, 17, 7]);
    assert_eq!(older_plan(false, B, &mut numbers), given(0, 0, 0, 0));
    assert_eq!(numbers, [1, 0, 4, 1, 0, 0, 7]);
    assert_eq!(older_tasks(false, 1, FP, &C.concat(), &mut numbers), given(1, 0, 0, 0));
    assert_eq!(older_tasks(true, 1, EDF, &TASKS.concat(), &mut numbers), refused(14, 1, 3));
    assert_eq!(older_plan(true, I, &mut [7; 9]), refused(14, 2, 4));
    assert_eq!(older_tasks(true, 1, FP, &TASKS.concat()[..7], &mut numbers), refused(10, 2, 0));
}

#[test]
fn names_and_words() {
    assert_eq!(numbers(), ([0, 1, 1, 0], 32, true));
    assert_eq!(reserved(B, &mut [KEPT; 2]), 0);
    assert_eq!(text(0), "Not refused.");
    assert_eq!(text(5), "The number of cores is not 1 to 16.");
    assert_eq!(text(13), "The caller's list has fewer records than the table has tasks.");
    assert_eq!(advice(5), "Give the number of cores of the chip.");
    assert_eq!(text(99), "There is no such refusal.");
    assert_eq!(advice(99), "Compare the number with docs/REFUSALS.md.");
}
