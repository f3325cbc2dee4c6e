//! What the header's functions promise of the fewest cores, by hand.

use eskihrum_header::{fewest_plan, fewest_tasks, plan, tasks, Record, Task, Told};

/// Document 01's case b, which one core does for.
const B: &[u8] = b"01010102FB\x0A02010000000C000000040000000CE1\x0A0201000000180000000900000012CA\x0A";
const TASKS: [Task; 2] = [[1, 12, 4, 12], [1, 24, 9, 18]];
const KEPT: Record = [7, 8, 9];

#[test]
fn one_core_does() {
    let mut by_force = [KEPT; 3];
    let forced = plan(true, B, &mut by_force);
    let mut room = [KEPT; 3];
    assert_eq!(fewest_plan(B, &mut room), (forced, 1));
    assert_eq!(room, by_force);
    for cores in 1..=16 {
        let mut room = [KEPT; 3];
        assert_eq!(fewest_tasks(cores, 1, &TASKS, &mut room), (forced, 1));
        assert_eq!(room, by_force);
    }
}

#[test]
fn two_cores_do() {
    let (told, cores) = fewest_tasks(1, 0, &TASKS, &mut [KEPT; 2]);
    assert_eq!((told.yes, told.forced, told.passes, told.records, cores), (1, 0, 1, 2, 2));
}

#[test]
fn sixteen_and_seventeen() {
    let list = [[1, 1, 1, 1]; 17];
    let (told, cores) = fewest_tasks(1, 0, &list[..16], &mut [KEPT; 17]);
    assert_eq!((told.yes, told.forced, told.passes, told.records, cores), (1, 0, 1, 16, 16));
    let mut room = [KEPT; 17];
    assert_eq!(fewest_tasks(1, 0, &list, &mut room), (tasks(true, 16, 0, &list, &mut [KEPT; 17]), 0));
    assert_eq!(room, [KEPT; 17]);
}

#[test]
fn refused_as_ever() {
    let refused = |number| (Told { number, ..Told::default() }, 0);
    let mut room = [KEPT; 2];
    for cores in [0, 17, u32::MAX] {
        assert_eq!(fewest_tasks(cores, 1, &TASKS, &mut room), refused(5));
    }
    assert_eq!(fewest_tasks(1, 2, &TASKS, &mut room), refused(6));
    assert_eq!(fewest_tasks(1, 1, &[], &mut room), refused(7));
    assert_eq!(fewest_tasks(1, 1, &[[1, 1, 1, 1]; 33], &mut room), refused(7));
    assert_eq!(fewest_tasks(1, 1, &TASKS, &mut room[..1]), refused(13));
    assert_eq!(fewest_plan(B, &mut []), refused(13));
    assert_eq!(room, [KEPT; 2]);
}
