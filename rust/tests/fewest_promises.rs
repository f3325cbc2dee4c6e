//! What the safe functions promise of the fewest cores, by hand.

use eskihrum::{fewest_plan, fewest_tasks, force_plan, force_tasks, Policy, Record, Refusal, Task};

/// Document 01's case b, and what forcing gives on its one core.
const B: &[u8] = b"01010102FB\x0A02010000000C000000040000000CE1\x0A0201000000180000000900000012CA\x0A";
const TASKS: [Task; 2] = Task::in_places([Task::preemptive(12, 4, 12), Task::preemptive(24, 9, 18)]);
const KEPT: Record = Record { flag: 7, forced: 8, bound: 9 };

/// One core does, whatever number is given, with the records of forcing on it; a record behind them is kept.
#[test]
fn one_core_does() {
    let mut by_force = [KEPT; 3];
    let forced = force_plan(B, &mut by_force).expect("case b");
    let mut room = [KEPT; 3];
    let found = fewest_plan(B, &mut room).expect("case b");
    assert_eq!((found.cores, found.forced), (1, forced));
    assert_eq!(room[2], KEPT);
    for cores in 1..=16 {
        let mut room = [KEPT; 3];
        let found = fewest_tasks(cores, Policy::Fp, &TASKS, &mut room).expect("case b");
        assert_eq!((found.cores, found.forced.count, found.forced.passes), (1, 2, 3));
        assert_eq!(room, by_force);
    }
}

/// Under EDF it takes two, and no task is forced then.
#[test]
fn two_cores_do() {
    let mut room = [KEPT; 2];
    let found = fewest_tasks(1, Policy::Edf, &TASKS, &mut room).expect("two cores");
    assert_eq!((found.cores, found.forced.count, found.forced.passes), (2, 0, 1));
    assert_eq!(found.forced.records[1], Record { flag: 1, forced: 0, bound: 9 });
}

/// Sixteen tasks of load 1 need 16 cores; a seventeenth is refused with 14, as found at 16 cores.
#[test]
fn sixteen_and_seventeen() {
    for policy in [Policy::Edf, Policy::Fp] {
        let tasks = Task::in_places([Task::preemptive(1, 1, 1); 17]);
        let mut room = [KEPT; 17];
        let found = fewest_tasks(1, policy, &tasks[..16], &mut room).expect("16 cores do");
        assert_eq!((found.cores, found.forced.count, found.forced.passes), (16, 0, 1));
        let mut room = [KEPT; 17];
        let refusal = fewest_tasks(1, policy, &tasks, &mut room).unwrap_err();
        assert_eq!(refusal, force_tasks(16, policy, &tasks, &mut [KEPT; 17]).unwrap_err());
        assert_eq!((refusal.number, room), (14, [KEPT; 17]));
    }
}

/// The number that is given is checked; a text, a table and a list too small are refused as ever.
#[test]
fn refused_as_ever() {
    let mut room = [KEPT; 2];
    let number = |refusal: Refusal| (refusal.number, refusal.passes);
    for cores in [0, 17, u32::MAX] {
        assert_eq!(fewest_tasks(cores, Policy::Fp, &TASKS, &mut room).map_err(number), Err((5, 0)));
    }
    assert_eq!(fewest_tasks(1, Policy::Fp, &[], &mut room).map_err(number), Err((7, 0)));
    assert_eq!(fewest_tasks(1, Policy::Fp, &TASKS, &mut room[..1]).map_err(number), Err((13, 0)));
    assert_eq!(fewest_plan(B, &mut room[..1]).map_err(number), Err((13, 0)));
    assert_eq!(fewest_plan(b"", &mut room).map_err(number), Err((1, 0)));
    assert_eq!(room, [KEPT; 2]);
}
