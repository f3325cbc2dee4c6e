//! Levels by hand (document 02, wish 8): bounds, forcing, refusals 17 and 18, and what is written.

use second::fewest::fewest_of_list;
use second::forcing::{force, test};
use second::hand::{case_a, case_g, table};
use second::levels::{all_orders, drawn, flat, ranks, unflat, with_levels, OUTSIDE};
use second::levels_compare::{Job, Leveled, Own, Said, JOBS};
use second::levels_tables::by_hand;
use second::plan::{check_list, in_places, read, refuse, write, Refusal, Table, Task, EDF, FP};
use second::random::Random;
use second::writing::write_at;
use second::{bound, levels_bound, textbook};

// ---------------------------------------------------------------- sums done by hand

/// Tasks are (T, C, D, flag). One core, FP, (6,2,6) twice. W of the other is of l + 4: 2 at l = 1 and 2,
/// then 3, and 4 from l = 4 to 7.
///
/// - P with a higher one, or with a lower N, q = l - 1: the term is q up to l = 5 and 4 at l = 6, 2 + 4 = 6.
///   Bound 6. P with a lower P: nothing is added, 2.
/// - N with a higher one: the term is min(W, l), which is l up to 4; at l = 5 it is 4, 1 + 4 = 5. Bound
///   5 + 1 = 6. N with a lower N: C - 1 = 1 is added; l = 2, bound 3. N with a lower P: l = 1, bound 2.
///
/// On one level each is higher than the other.
///
/// Case a, (12,4,12,P) (24,9,18,P). W of task 2 is of l + 9: 9 up to l = 14. So task 1 below it or beside it
/// has none: as P the term is q = l - 3 up to l = 12, as N it is l up to l = 9.
///
/// - On one level task 2 has none as P, as in case a, and 17 as N, as in case b. Both are forced at once;
///   the second test finds no preemptive task without a bound. 14, place 1, two passes.
/// - With the levels 2 and 1 task 2 has 9. Task 1 is forced. Then task 2 as P has the term q = l - 8 up to
///   18, W of task 1 being of l + 8: none, it is forced. Three passes; as N it would have 4 + 8 = 12.
///
/// Case d, (12,4,11,P) (24,9,18,N), on one level: task 1 has none, and as N none up to l = 8. Task 2: W of
/// task 1 is of l + 7, 4 at l = 5: 1 + 4 = 5, bound 5 + 8 = 13. Two passes.
///
/// Case g, two cores, (10,4,10,P) (10,4,10,P) (20,8,20,P), on one level: both other terms of task 1 are q up
/// to l = 10, half their sum is q; none. As N they are l up to l = 7; none. Task 3 has 20 as ever. Two
/// passes. With tasks 1 and 2 on one level above task 3 it is half of one q: at l = 4 that is 0. Bound 4.
#[test]
fn bounds_by_hand() {
    for way in [bound::bound_of, textbook::bound_of, levels_bound::bound_of] {
        for case in by_hand() {
            let (yes, records) = test(&case.table, way);
            let bounds: Vec<u32> = records.iter().map(|record| record.bound).collect();
            assert_eq!(bounds, case.tested, "{}", case.name);
            assert_eq!(yes, !case.tested.contains(&0));
            let forced = match force(&case.table, way) {
                Ok(answer) => {
                    let bounds = answer.records.iter().map(|record| record.bound).collect();
                    Ok((answer.forced, answer.passes, bounds))
                }
                Err(refusal) => Err((refusal.place, refusal.passes)),
            };
            assert_eq!(forced, case.forced, "{}", case.name);
        }
    }
}

/// The example of what the old lines would lose.
#[test]
fn six_and_six() {
    let twice = table(FP, 1, &[(6, 2, 6, 'P'), (6, 2, 6, 'P')]);
    let bounds = |table: &Table| test(table, bound::bound_of).1.iter().map(|r| r.bound).collect::<Vec<_>>();
    assert_eq!(bounds(&twice), [2, 6]);
    let together = with_levels(&twice, &[1, 1]);
    assert_eq!(bounds(&together), [6, 6]);
    // The text of a table has no levels: read back it is the table in places.
    assert_eq!(bounds(&read(&write(&together)).unwrap()), [2, 6]);
    let mut buffer = [b'#'; 100];
    assert_eq!(write_at(1, FP, &together.tasks, &mut buffer, 5), refuse(18, 0));
    assert_eq!(buffer, [b'#'; 100]);
}

#[test]
fn what_is_said() {
    let mut records = [7; 9];
    let numbers = flat(&with_levels(&case_a(), &[2, 1]).tasks);
    let none = Said::default();
    assert_eq!(Own.call(Job::Test, [1, FP], &numbers, &mut records), none);
    assert_eq!(records, [1, 0, 0, 1, 0, 9, 7, 7, 7]);
    let said = Own.call(Job::Force, [1, FP], &numbers, &mut records);
    assert_eq!(said, Said { number: 14, place: 1, passes: 3, ..none });
    let said = Own.call(Job::Fewest, [1, FP], &numbers, &mut records);
    assert_eq!(said, Said { yes: true, cores: 2, passes: 1, ..none });
    assert_eq!(records, [1, 0, 4, 1, 0, 9, 7, 7, 7]);
    let said = Own.call(Job::Force2, [1, FP], &numbers, &mut records);
    assert_eq!((said.number, said.rounds, said.cores), (15, 0, 0));
    assert_eq!(Own.write([1, FP], &numbers, &mut [0; 80], 0), Err((18, 0, 0)));
}

// ---------------------------------------------------------------- refusals

const LEGAL: Task = Task { flag: 1, period: 12, cost: 4, deadline: 12, level: 3 };

fn checked(tasks: &[Task], room: usize) -> Result<(), Refusal> {
    let both = [EDF, FP].map(|policy| check_list(1, policy, tasks, room).map(|_| ()));
    assert_eq!(both[0], both[1]);
    both[0]
}

#[test]
fn seventeen_at_its_borders_under_both_policies() {
    for level in 1..=32 {
        assert_eq!(checked(&[Task { level, ..LEGAL }], 1), Ok(()));
    }
    for &level in OUTSIDE {
        let wrong = Task { level, ..LEGAL };
        assert_eq!(checked(&[wrong], 1), refuse(17, 1));
        assert_eq!(checked(&[LEGAL, LEGAL, wrong, LEGAL], 4), refuse(17, 3));
        assert_eq!(checked(&[&[LEGAL; 31][..], &[wrong]].concat(), 32), refuse(17, 32));
    }
}

/// After 11 of the same task, before 8 of the next, before 13; task by task.
#[test]
fn seventeen_in_its_order() {
    let wrong = Task { level: 0, ..LEGAL };
    let flag = Task { flag: 2, ..LEGAL };
    assert_eq!(checked(&[wrong, flag], 0), refuse(17, 1));
    assert_eq!(checked(&[flag, wrong], 0), refuse(8, 1));
    for (task, number) in [
        (Task { flag: 2, ..wrong }, 8),
        (Task { period: 0, ..wrong }, 9),
        (Task { deadline: 13, ..wrong }, 10),
        (Task { cost: 0, ..wrong }, 11),
        (Task { cost: 13, ..wrong }, 11),
        (wrong, 17),
        (LEGAL, 13),
    ] {
        assert_eq!(checked(&[LEGAL, task], 1), refuse(number, 2 * u32::from(number != 13)));
    }
    let zeros = Task { flag: 0, period: 0, cost: 0, deadline: 0, level: 0 };
    assert_eq!(checked(&[LEGAL, zeros], 2), refuse(9, 2));
    assert_eq!(check_list(0, FP, &[wrong], 1), refuse(5, 0));
    assert_eq!(check_list(1, 2, &[wrong], 1), refuse(6, 0));
    assert_eq!(check_list(1, FP, &[wrong; 33], 1), refuse(7, 0));
    assert_eq!(fewest_of_list(1, EDF, &[LEGAL, wrong], 0, bound::bound_of), refuse(17, 2));
}

/// Numbers that are missing in the last task count as 0.
#[test]
fn lists_that_are_cut_off() {
    let whole = flat(&[LEGAL, LEGAL]);
    assert_eq!(unflat(&whole), [LEGAL, LEGAL]);
    for (len, number, place) in [(10, 13, 0), (9, 17, 2), (8, 10, 2), (7, 10, 2), (6, 9, 2), (0, 7, 0)] {
        for job in JOBS {
            let said = Own.call(job, [1, FP], &whole[..len], &mut []);
            assert_eq!(said, Said { number, place, ..Said::default() });
        }
    }
    assert_eq!(Own.call(Job::Test, [1, FP], &whole[..5], &mut []).number, 13);
    assert_eq!(Own.write([1, FP], &whole[..9], &mut [], 1), Err((17, 2, 0)));
}

/// After all others, with place 0, under both policies; nothing is written.
#[test]
fn eighteen_comes_last() {
    let size = 11 + 3 * 31;
    for policy in [EDF, FP] {
        let said = |levels: [u32; 3], room: usize, start: usize| {
            let tasks = levels.map(|level| Task { level, ..LEGAL });
            let mut buffer = vec![b'#'; room];
            let said = write_at(2, policy, &tasks, &mut buffer, start);
            assert!(said.is_ok() || buffer == vec![b'#'; room]);
            said
        };
        assert_eq!(said([1, 2, 3], size + 4, 4), Ok(size + 4));
        for levels in [
            [1, 1, 1],
            [2, 2, 2],
            [1, 2, 2],
            [1, 3, 2],
            [3, 2, 1],
            [2, 3, 4],
            [1, 2, 4],
            [1, 3, 4],
            [1, 2, 32],
            [1, 1, 3],
        ] {
            assert_eq!(said(levels, size, 0), refuse(18, 0));
            assert_eq!(said(levels, size - 1, 0), refuse(16, 0));
            assert_eq!(said(levels, size, 1), refuse(16, 0));
            assert_eq!(said(levels, size, usize::MAX), refuse(16, 0));
        }
        for levels in [[0, 2, 3], [1, 33, 3], [1, 2, u32::MAX]] {
            let place = 1 + levels.iter().position(|&level| !(1..=32).contains(&level)).unwrap() as u32;
            assert_eq!(said(levels, 0, 9), refuse(17, place));
        }
    }
    // One task is written on level 1 alone; all 32 are written in their places.
    for level in 2..=32 {
        assert_eq!(write_at(1, FP, &[Task { level, ..LEGAL }], &mut [0; 42], 0), refuse(18, 0));
    }
    let most = Table::in_places(2, FP, &[LEGAL; 32]);
    let mut buffer = [0; 1_003];
    assert_eq!(write_at(2, FP, &most.tasks, &mut buffer, 0), Ok(1_003));
    assert_eq!(read(&buffer), Ok(most));
}

// ---------------------------------------------------------------- the generators

#[test]
fn every_order_once() {
    assert_eq!([1, 2, 3, 4, 5].map(|n| all_orders(n).len()), [1, 3, 13, 75, 541]);
    assert_eq!(all_orders(2), [[1, 1], [1, 2], [2, 1]]);
    assert_eq!(ranks(&[32, 7, 7, 9]), [3, 1, 1, 2]);
}

/// Every kind is drawn: one level for all, against the order, gaps, places, the lowest level.
#[test]
fn levels_of_every_kind() {
    let mut random = Random::new(81);
    let mut seen = [0; 6];
    for _ in 0..4_000 {
        let n = random.small(2, 32) as usize;
        let levels = drawn(&mut random, n);
        assert!(levels.len() == n && levels.iter().all(|level| (1..=32).contains(level)));
        let places: Vec<u32> = (1..=n as u32).collect();
        let kinds = [
            levels.windows(2).all(|two| two[0] == two[1]),
            levels.windows(2).all(|two| two[0] > two[1]),
            ranks(&levels) != levels,
            ranks(&levels) == places && levels != places,
            levels.contains(&32) && levels.contains(&1),
            ranks(&levels).iter().max().unwrap() + 1 == n as u32,
        ];
        seen.iter_mut().zip(kinds).for_each(|(seen, kind)| *seen += u32::from(kind));
    }
    assert!(seen.iter().all(|&times| times >= 200), "{seen:?}");
}

/// Old lines and old calls have the places as levels.
#[test]
fn old_tables_are_in_places() {
    let levels = |tasks: &[Task]| tasks.iter().map(|task| task.level).collect::<Vec<_>>();
    assert_eq!(levels(&read(&write(&case_g())).unwrap().tasks), [1, 2, 3]);
    assert_eq!(levels(&case_g().tasks), [1, 2, 3]);
    assert_eq!(levels(&in_places(&[LEGAL; 32])), (1..=32).collect::<Vec<_>>());
    let numbers = second::compare::flat_tasks(&[LEGAL, LEGAL]);
    assert_eq!(levels(&second::compare::unflat(&numbers)), [1, 2]);
}
