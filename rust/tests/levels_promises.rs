//! What the safe functions promise of tasks with levels. The sums are document 01's, done by hand for two like
//! tasks on one core under FP.
//!
//! (6,2,6) twice. W(l) is taken at l + 4: 2 at l = 2, 3 at 3, 4 from 4 to 7. On one level each counts as higher
//! than the other. As P, q = l - 1, and min(W, q) is l - 1 up to l = 5, where 2 + 4 > 5; at 6 it is 4, and 2 +
//! 4 <= 6: bound 6. As N, min(W, l) is l up to 4; at l = 5 it is 4, and 1 + 4 <= 5: bound 6. The only higher
//! one has 2 as P; as N, where the other is a candidate with min(W, 1, l) = 1, it has l = 2 and the bound 3.
//!
//! (6,3,5) twice. As P on one level min(W, q) = q for l = 3, 4, 5, and as N min(W, l) = l for l = 1, 2, 3:
//! none either way, 14 at task 1 after two passes. Where one is higher it has 3, the other none, and forced it
//! takes the bound of the first away; then the first has l = 3 as N, and the other none: three passes.

use eskihrum::{fewest_tasks, force_tasks, force_tasks_in, test_tasks, test_tasks_in, write_tasks};
use eskihrum::{Edition, Place, Policy, Record, Refusal, Task};
use Policy::{Edf, Fp};

const KEPT: Record = Record { flag: 7, forced: 8, bound: 9 };

fn pair(task: Task, levels: [u32; 2]) -> [Task; 2] {
    levels.map(|level| task.at(level))
}

fn refusal(number: u32, place: Place, passes: u32) -> Refusal {
    Refusal { number, place, passes }
}

fn bounds(policy: Policy, tasks: &[Task]) -> Vec<u32> {
    let mut room = [KEPT; 2];
    let told = test_tasks(1, policy, tasks, &mut room).expect("a table");
    told.records.iter().map(|record| record.bound).collect()
}

#[test]
fn levels_say_who_is_higher() {
    for (task, first) in [(Task::preemptive(6, 2, 6), 2), (Task::non_preemptive(6, 2, 6), 3)] {
        for (levels, wanted) in [
            ([1, 1], [6, 6]),
            ([32, 32], [6, 6]),
            ([1, 2], [first, 6]),
            ([9, 32], [first, 6]),
            ([2, 1], [6, first]),
        ] {
            assert_eq!(bounds(Fp, &pair(task, levels)), wanted, "{levels:?}");
        }
    }
}

/// On one level there is no slack and one round; where one is higher it has the slack 4, the other comes to 4.
#[test]
fn levels_count_under_the_second_edition() {
    for (levels, rounds, wanted) in [([3, 3], 1, [6, 6]), ([3, 4], 3, [2, 4]), ([4, 3], 3, [4, 2])] {
        let mut room = [KEPT; 2];
        let tasks = pair(Task::preemptive(6, 2, 6), levels);
        let told = test_tasks_in(Edition::Second, 1, Fp, &tasks, &mut room).expect("a table");
        assert_eq!((told.told.yes, told.rounds), (true, rounds));
        assert_eq!([told.told.records[0].bound, told.told.records[1].bound], wanted);
        let told = force_tasks_in(Edition::Second, 1, Fp, &tasks, &mut room).expect("it is accepted");
        assert_eq!((told.told.count, told.told.passes, told.rounds), (0, 1, rounds));
    }
}

#[test]
fn forcing_goes_by_levels() {
    for (levels, place, passes) in [([1, 1], 1, 2), ([1, 2], 2, 3), ([7, 3], 1, 3)] {
        let (tasks, mut room) = (pair(Task::preemptive(6, 3, 5), levels), [KEPT; 2]);
        let told = force_tasks(1, Fp, &tasks, &mut room);
        assert_eq!(told, Err(refusal(14, Place::Task(place), passes)));
        assert_eq!(room, [KEPT; 2]);
        let found = fewest_tasks(1, Fp, &tasks, &mut room).expect("two cores do");
        assert_eq!((found.cores, found.forced.count, found.forced.passes), (2, 0, 1));
        assert_eq!(room, [Record { flag: 1, forced: 0, bound: 3 }; 2]);
    }
}

#[test]
fn edf_ignores_levels() {
    for task in [Task::preemptive(6, 2, 6), Task::non_preemptive(6, 2, 6)] {
        let places = bounds(Edf, &pair(task, [1, 2]));
        for levels in [[1, 1], [2, 1], [32, 5]] {
            assert_eq!(bounds(Edf, &pair(task, levels)), places);
        }
    }
}

/// 17 comes after 11 of the same task, before 8 of the next, before 13 and 16, and under both policies. A task
/// that was given no level is refused: no list is read as another table.
#[test]
fn a_level_that_is_none_is_refused() {
    let good = Task::preemptive(6, 2, 6);
    assert_eq!((good.level, Task::non_preemptive(6, 2, 6).level), (0, 0));
    for policy in [Edf, Fp] {
        for level in [0, 33, u32::MAX] {
            let (tasks, mut room, mut buffer) = (pair(good, [1, level]), [KEPT; 2], [b'#'; 80]);
            let told = Some(refusal(17, Place::Task(2), 0));
            assert_eq!(test_tasks(1, policy, &tasks, &mut room).err(), told);
            assert_eq!(force_tasks(1, policy, &tasks, &mut []).err(), told);
            assert_eq!(fewest_tasks(1, policy, &tasks, &mut room).err(), told);
            assert_eq!(write_tasks(1, policy, &tasks, &mut buffer, 99).err(), told);
            for edition in [Edition::First, Edition::Second] {
                assert_eq!(test_tasks_in(edition, 1, policy, &tasks, &mut room).err(), told);
                assert_eq!(force_tasks_in(edition, 1, policy, &tasks, &mut room).err(), told);
            }
            let told = Some(refusal(11, Place::Task(1), 0));
            let tasks = [Task { cost: 0, ..good.at(level) }, good.at(1)];
            assert_eq!(test_tasks(1, policy, &tasks, &mut room).err(), told);
            let told = Some(refusal(17, Place::Task(1), 0));
            let tasks = [good.at(level), Task { flag: 2, ..good.at(1) }];
            assert_eq!(test_tasks(1, policy, &tasks, &mut room).err(), told);
            assert_eq!((room, buffer), ([KEPT; 2], [b'#'; 80]));
        }
    }
}

/// Case a's lines, from its table with places as levels by each way to set them; 18 for any other levels, after
/// 16.
#[test]
fn places_are_written_and_nothing_else_is() {
    const TEXT: &[u8] = b"01010102FB\n02010000000C000000040000000CE1\n0201000000180000000900000012CA\n";
    let (one, two) = (Task::preemptive(12, 4, 12), Task::preemptive(24, 9, 18));
    let mut set = [one, two.at(1)];
    Task::set_places(&mut set);
    for tasks in [[one.at(1), two.at(2)], Task::in_places([one, two]), set] {
        let mut buffer = [b'#'; 73];
        assert_eq!(write_tasks(1, Fp, &tasks, &mut buffer, 0), Ok(73));
        assert_eq!(buffer[..], *TEXT);
    }
    let mut buffer = [b'#'; 80];
    for levels in [[1, 1], [2, 1], [1, 3], [2, 3]] {
        let tasks = [one.at(levels[0]), two.at(levels[1])];
        for policy in [Edf, Fp] {
            let told = write_tasks(1, policy, &tasks, &mut buffer, 3);
            assert_eq!(told, Err(refusal(18, Place::Nowhere, 0)));
            let told = write_tasks(1, policy, &tasks, &mut buffer[..72], 0);
            assert_eq!(told, Err(refusal(16, Place::Nowhere, 0)));
        }
    }
    assert_eq!(buffer, [b'#'; 80]);
}
