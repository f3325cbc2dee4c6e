//! The fewest cores: sums done by hand, and properties against every number of cores.

use second::fewest::{fewest, fewest_of_list, fewest_of_text, on_cores, Fewest};
use second::fewest_tables::*;
use second::forcing::{bounds, force, BoundOf, Record};
use second::hand::{case_a, case_e, table};
use second::plan::{in_places, refuse, write, Refusal, Table, Task, EDF, FP};
use second::random::Random;
use second::tables::{all_tables, next_edge_pair, small_table};
use second::{bound, compare, textbook};

const WAYS: [BoundOf; 2] = [bound::bound_of, textbook::bound_of];

// ------------------------------------------------------------ by hand

/// b, c, d, e, g, h, k have document 01's sums. d and e are refused on one core, h on two; with one core more
/// they have no more tasks than cores, and each bound is C. The load of g is 6/5, too much for one core.
///
/// edf-one-core, on one core. Task 1 has E = 1 * 2 + 1 = 3 from task 2, and W = 2, 2, 3, 4 at l = 1 to 4, so
/// that 1 + min(W, 3, l) first fits l at 4. Task 2 has E = 1 from task 1: at l = 2 the sum is 1 and 3 > 2; at
/// l = 3 it is 1 and 3 fits.
///
/// all-forced-on-two, two cores. Pass 1: tasks 1 and 2 have 1 and 2; task 3 has (1 + 1) / 2 at l = 2 and
/// (2 + 2) / 2 at l = 3, none. Pass 2, task 3 changed: l = 2 with (1 + 2) / 2 = 1, bound 3; task 2 then has
/// (1 + 1) / 2 at l = 2 and (2 + 2) / 2 at l = 3, none. Pass 3: task 1 has (1 + 1) / 2 at l = 1 and
/// (2 + 2) / 2 at l = 2, none. Pass 4: each has l = 2, with (1 + 1) / 2, (1 + 1) / 2 and (1 + 2) / 2; bounds
/// 2, 3, 3. The load is 5/3, too much for one core. On three cores each bound is C, and nothing is forced.
///
/// full, n tasks with C = D: only l = C may be tried, where each other task adds 1; so m must be above the
/// number of others that count, which is n - 1 for the last task.
///
/// one-too-many-fp, 16 cores: task 17 has 16 / 16 and is changed; then task 16 has 15 higher ones and one
/// lower that is non-preemptive, and so on to task 1: 17 passes, and one more in which task 1 has the 16
/// largest of 16 times 1. Under EDF all fail at once. With C = 1 no lower task blocks, so that in the last
/// pass task 17 alone has none.
#[test]
fn sums_done_by_hand() {
    for case in by_hand() {
        for way in WAYS {
            let found = fewest(&case.table, way);
            let said = match &found {
                Ok(Fewest { cores, forcing }) => {
                    let bounds = forcing.records.iter().map(|record| record.bound).collect();
                    Ok((*cores, forcing.forced, forcing.passes, bounds))
                }
                Err(Refusal { number: 14, place, passes }) => Err((*place, *passes)),
                Err(other) => panic!("{other:?}"),
            };
            assert_eq!(said, case.due, "{}", case.name);
        }
    }
}

#[test]
fn records_of_two_by_hand() {
    let three = table(FP, 9, &[(3, 1, 2, 'P'), (3, 2, 3, 'P'), (3, 2, 3, 'P')]);
    let record = |flag, forced, bound| Record { flag, forced, bound };
    let found = fewest(&three, bound::bound_of).unwrap();
    assert_eq!(found.forcing.records, [record(0, 1, 2), record(0, 1, 3), record(0, 1, 3)]);
    let more = force(&on_cores(&three, 3), bound::bound_of).unwrap();
    assert_eq!(more.records, [record(1, 0, 1), record(1, 0, 2), record(1, 0, 2)]);
    // Case e: refused on one core with place 1 and three passes; none of that is said.
    let found = fewest(&case_e(), bound::bound_of).unwrap();
    assert_eq!((found.cores, found.forcing.passes), (2, 1));
    assert_eq!(found.forcing.records, [record(1, 0, 4), record(1, 0, 9)]);
}

// ------------------------------------------------------------ refusals

#[test]
fn refusals_in_their_order() {
    let full = Task::of_four(1, 5, 5, 5);
    let bad = Task::of_four(2, 0, 0, 0);
    let flag = Task { flag: 0, ..bad };
    let period = Task { period: 9, ..flag };
    let deadline = Task { deadline: 9, ..period };
    let with = |task: Task| [vec![task], vec![bad; 16]].concat();
    let fourteen = || Err(Refusal { number: 14, place: 1, passes: 18 });
    for (cores, policy, tasks, room, said) in [
        (0, 2, vec![], 0, refuse(5, 0)),
        (17, 2, vec![bad; 33], 0, refuse(5, 0)),
        (17, FP, vec![full; 17], 17, refuse(5, 0)),
        (u32::MAX, FP, vec![full], 1, refuse(5, 0)),
        (1, 2, vec![], 0, refuse(6, 0)),
        (16, 2, vec![bad; 33], 0, refuse(6, 0)),
        (1, FP, vec![], 0, refuse(7, 0)),
        (1, FP, vec![bad; 33], 0, refuse(7, 0)),
        (1, FP, with(bad), 0, refuse(8, 1)),
        (1, FP, with(flag), 0, refuse(9, 1)),
        (1, FP, with(period), 0, refuse(10, 1)),
        (1, FP, with(deadline), 0, refuse(11, 1)),
        (1, FP, with(full), 0, refuse(8, 2)),
        (1, FP, vec![full; 17], 16, refuse(13, 0)),
        (16, FP, vec![full; 17], 0, refuse(13, 0)),
        (1, FP, vec![full; 17], 17, fourteen()),
        (16, FP, vec![full; 17], 40, fourteen()),
    ] {
        assert_eq!(fewest_of_list(cores, policy, &in_places(&tasks), room, bound::bound_of), said);
    }
}

#[test]
fn refusals_of_texts() {
    let text = write(&case_a());
    let of = |text: &[u8], room: usize| fewest_of_text(text, room, bound::bound_of);
    assert_eq!(of(b"", 0), refuse(1, 1));
    assert_eq!(of(b"01000102FC\x0A", 0), refuse(5, 1));
    assert_eq!(of(b"01110102EB\x0A", 0), refuse(5, 1));
    assert_eq!(of(&text[..72], 0), refuse(1, 3));
    assert_eq!(of(&[&text[..], b"0"].concat(), 0), refuse(12, 4));
    assert_eq!(of(&text, 1), refuse(13, 0));
    assert_eq!(of(&text, 2), fewest(&case_a(), bound::bound_of));
    assert_eq!(of(&text.to_ascii_lowercase(), 2), fewest(&case_a(), bound::bound_of));
    let many = write(&alike(FP, 3, 17, (5, 5, 5, 'P')));
    assert_eq!(of(&many, 16), refuse(13, 0));
    assert_eq!(of(&many, 17), Err(Refusal { number: 14, place: 1, passes: 18 }));
}

// ------------------------------------------------------------ every number of cores

/// Every number of cores is tried: none below the answer accepts, all from it up to 16 do, and the answer is
/// forcing's there; where none does, the refusal is the one at 16. The head's number changes nothing.
fn check(table: &Table) -> u32 {
    let found = fewest(table, compare::bound_of);
    let all: Vec<_> = (1..=16).map(|cores| force(&on_cores(table, cores), compare::bound_of)).collect();
    for (cores, said) in (1..=16).zip(&all) {
        let due = found.as_ref().is_ok_and(|found| cores >= found.cores);
        assert_eq!(said.is_ok(), due, "{cores} cores, {table:?}");
    }
    for head in [1, 16] {
        assert_eq!(fewest(&on_cores(table, head), compare::bound_of), found);
    }
    match found {
        Ok(found) => {
            assert_eq!(all[found.cores as usize - 1], Ok(found.forcing));
            let load: u64 =
                table.tasks.iter().map(|task| task.cost as u64 * (1 << 40) / task.period as u64).sum();
            assert!(load <= (found.cores as u64) << 40, "{table:?}");
            assert!(found.cores <= table.tasks.len() as u32);
            found.cores
        }
        Err(refusal) => {
            assert!(table.tasks.len() > 16);
            assert_eq!(all[15], Err(refusal));
            0
        }
    }
}

#[test]
fn made_tables() {
    let mut counts = [0; 17];
    for table in kinds() {
        counts[check(table) as usize] += 1;
    }
    assert!(counts.iter().all(|&count| count >= 6), "{counts:?}");
    assert!(counts[0] >= 60 && counts[1] >= 20 && counts[16] >= 24, "{counts:?}");
}

#[test]
fn small_tables() {
    for table in all_tables(3, 3, 1).step_by(5) {
        check(&table);
    }
}

#[test]
fn random_tables() {
    let mut random = Random::new(71);
    for round in 0..1_500 {
        let most = [3, 6, 12, 24, 32][round % 5];
        check(&small_table(&mut random, most, 16, 40));
    }
    for round in 0..40 {
        let (inside, outside) = next_edge_pair(&mut random, round % 2, 20, 2_000);
        check(&inside);
        check(&outside);
    }
}

/// Under fixed flags one more core never raises a bound nor takes one away.
#[test]
fn one_more_core_under_fixed_flags() {
    let mut random = Random::new(72);
    let mut lowered = 0;
    for round in 0..600 {
        let table = small_table(&mut random, [4, 9, 20][round % 3], 1, 50);
        let flags: Vec<u32> = table.tasks.iter().map(|_| random.small(0, 1)).collect();
        let of = |cores: u32| bounds(&on_cores(&table, cores), &flags, compare::bound_of);
        for cores in 1..16 {
            for (few, more) in of(cores).into_iter().zip(of(cores + 1)) {
                if let Some(few) = few {
                    assert!(more.is_some_and(|more| more <= few), "{cores} {table:?}");
                }
                lowered += u32::from(few != more);
            }
        }
    }
    assert!(lowered >= 1_000, "{lowered}");
}

// ------------------------------------------------------------ what the kinds are

#[test]
fn kinds_are_what_they_say() {
    let mut random = Random::new(73);
    for table in exactly(&mut random, 16, 6).iter().chain(&exactly(&mut random, 5, 6)) {
        let found = fewest(table, compare::bound_of).unwrap();
        assert!(force(&on_cores(table, found.cores - 1), compare::bound_of).is_err());
        assert!([5, 16].contains(&found.cores));
    }
    let list = refused(&mut random, 30);
    let differs =
        |table: &&Table| force(table, compare::bound_of).err() != fewest(table, compare::bound_of).err();
    assert!(list.iter().all(|table| table.tasks.len() >= 17));
    assert!(list.iter().filter(differs).count() >= 15);
    for policy in [EDF, FP] {
        assert!(list.iter().any(|table| table.policy == policy));
    }
    for table in one_core(&mut random, 10) {
        assert_eq!(check(&table), 1);
    }
    for table in forced_otherwise(&mut random, 10) {
        let found = fewest(&table, compare::bound_of).unwrap();
        let more = force(&on_cores(&table, found.cores + 1), compare::bound_of).unwrap();
        assert!(found.forcing.forced > more.forced);
    }
    let far =
        |table: &&Table| fewest(table, compare::bound_of).is_ok_and(|f| f.cores.abs_diff(table.cores) >= 7);
    assert!(kinds().iter().filter(far).count() >= 100);
}
