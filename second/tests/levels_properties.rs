//! What has to hold of every table with levels: ways to a bound that must agree, and document 01's and 02's
//! sentences with "higher" read by levels.

// The rules are written as the document writes them, even where a shorter form exists.
#![allow(clippy::int_plus_one)]

use second::compare::bound_of;
use second::fewest::{fewest, on_cores};
use second::forcing::{bounds, force, test, Forced};
use second::levels::{leveled, levels_of, ranks, with_levels};
use second::levels_tables::{all, by_hand, edge, kinds, small};
use second::plan::{read, refuse, write, Refusal, Table, Task, EDF, FP};
use second::random::Random;
use second::tables::{near_edge, small_task};
use second::writing::write_at;
use second::{bound, edition2, edition2_bound, edition2_textbook, levels_bound, textbook};

fn drawn(seed: u64, count: usize) -> Vec<Table> {
    let mut random = Random::new(seed);
    (0..count).map(|_| small(&mut random, 8, 4, 40)).collect()
}

fn on(policy: u32, tables: Vec<Table>) -> Vec<Table> {
    tables.into_iter().map(|table| Table { policy, ..table }).collect()
}

fn in_places(table: &Table) -> Table {
    Table::in_places(table.cores, table.policy, &table.tasks)
}

// ---------------------------------------------------------------- three ways to a bound

/// Every length tried, the iteration, and every length tried on a table in places.
fn three_ways(table: &Table, flags: &[u32]) {
    for k in 0..table.tasks.len() {
        let literal = bound::bound_of(table, flags, k);
        assert_eq!(literal, textbook::bound_of(table, flags, k), "task {} of {table:?}", k + 1);
        assert_eq!(literal, levels_bound::bound_of(table, flags, k), "task {} of {table:?}", k + 1);
    }
}

fn four_ways_under_slacks(table: &Table, flags: &[u32], slacks: &[u32]) {
    for k in 0..table.tasks.len() {
        let literal = edition2_bound::bound_of(table, flags, slacks, k);
        assert_eq!(literal, edition2_textbook::bound_of(table, flags, slacks, k), "{k} {table:?}");
        assert_eq!(literal, edition2_textbook::bound_by_leaps(table, flags, slacks, k), "{k} {table:?}");
        assert_eq!(literal, levels_bound::bound_under_slacks(table, flags, slacks, k), "{k} {table:?}");
    }
}

#[test]
fn the_ways_agree_on_small_tables_in_every_order() {
    for table in all(3, 3, 2).step_by(7) {
        three_ways(&table, &table.flags());
    }
}

#[test]
fn the_ways_agree_under_any_flags_and_slacks() {
    let mut random = Random::new(91);
    for table in drawn(92, 6_000) {
        let flags: Vec<u32> = table.tasks.iter().map(|_| random.small(0, 1)).collect();
        let slack = |task: &Task| random.small(0, task.deadline - task.cost);
        let slacks: Vec<u32> = table.tasks.iter().map(slack).collect();
        three_ways(&table, &flags);
        four_ways_under_slacks(&table, &flags, &slacks);
        four_ways_under_slacks(&table, &flags, &vec![0; flags.len()]);
    }
    for round in 0..100 {
        let (inside, outside) = edge(&mut random, round % 2, 12, 500);
        three_ways(&inside, &inside.flags());
        three_ways(&outside, &outside.flags());
    }
}

// ---------------------------------------------------------------- places as levels

/// Document 01's two FP sums, by places, and its search: once more, and apart from all else here.
fn bound_by_places(table: &Table, flags: &[u32], k: usize) -> Option<u32> {
    let (tasks, m) = (&table.tasks, u64::from(table.cores));
    let (c, d) = (u64::from(tasks[k].cost), u64::from(tasks[k].deadline));
    let w = |i: usize, l: u64| bound::w(&tasks[i], l);
    let sum = |l: u64| -> u64 {
        if flags[k] == 1 {
            let counts = |i: &usize| *i < k || (*i > k && flags[*i] == 0);
            return (0..tasks.len()).filter(counts).map(|i| w(i, l).min(l - c + 1)).sum();
        }
        let blocks = (k + 1..tasks.len()).filter(|&i| flags[i] == 0);
        let mut blocking: Vec<u64> =
            blocks.map(|i| w(i, l).min(u64::from(tasks[i].cost) - 1).min(l)).collect();
        blocking.sort_by(|a, b| b.cmp(a));
        (0..k).map(|i| w(i, l).min(l)).sum::<u64>() + blocking.iter().take(m as usize).sum::<u64>()
    };
    if flags[k] == 1 {
        (c..=d).find(|&l| c + sum(l) / m <= l).map(|l| l as u32)
    } else {
        (1..=d - c + 1).find(|&l| 1 + sum(l) / m <= l).map(|l| (l + c - 1) as u32)
    }
}

#[test]
fn places_as_levels_is_document_01() {
    let mut random = Random::new(93);
    for table in on(FP, drawn(94, 6_000)) {
        let table = in_places(&table);
        let flags: Vec<u32> = table.tasks.iter().map(|_| random.small(0, 1)).collect();
        for k in 0..flags.len() {
            let by_places = bound_by_places(&table, &flags, k);
            assert_eq!(bound::bound_of(&table, &flags, k), by_places);
            assert_eq!(textbook::bound_of(&table, &flags, k), by_places);
        }
        assert_eq!(read(&write(&table)), Ok(table));
    }
}

// ---------------------------------------------------------------- what levels do and what they do not

/// All that is answered of a table: test and forcing under both editions, and the fewest cores.
fn answers(table: &Table) -> impl PartialEq + std::fmt::Debug {
    (
        (test(table, bound_of), force(table, bound_of)),
        (edition2::test(table, edition2::bound_of), edition2::force(table, edition2::bound_of)),
        fewest(table, bound_of),
    )
}

#[test]
fn edf_ignores_levels() {
    let mut random = Random::new(95);
    let mut tables = on(EDF, drawn(96, 1_500));
    tables.extend(on(EDF, near_edge(97).take(30).collect()));
    for table in tables {
        assert_eq!(answers(&leveled(&mut random, &table)), answers(&in_places(&table)));
    }
}

/// Gaps do not matter, nor where the levels start: only the order counts.
#[test]
fn only_the_order_counts() {
    let mut gaps = 0;
    for table in on(FP, drawn(98, 1_500)) {
        let (levels, ranks) = (levels_of(&table), ranks(&levels_of(&table)));
        gaps += u32::from(levels != ranks);
        assert_eq!(answers(&table), answers(&with_levels(&table, &ranks)));
    }
    assert!(gaps >= 500);
}

/// The tasks in another order, each with its level: the same bounds, forced tasks and passes.
#[test]
fn the_tables_order_does_not_count() {
    let mut random = Random::new(99);
    for table in drawn(100, 2_000).into_iter().chain(kinds().iter().cloned()) {
        let n = table.tasks.len();
        let mut order: Vec<usize> = (0..n).collect();
        for last in (1..n).rev() {
            order.swap(last, random.between(0, last as u64) as usize);
        }
        let tasks = order.iter().map(|&i| table.tasks[i]).collect();
        let other = Table { tasks, ..table.clone() };
        let moved = |list: &[second::forcing::Record]| order.iter().map(|&i| list[i]).collect::<Vec<_>>();
        assert_eq!(test(&other, bound_of).1, moved(&test(&table, bound_of).1));
        match (force(&table, bound_of), force(&other, bound_of)) {
            (Ok(one), Ok(two)) => {
                let due = Forced { records: moved(&one.records), ..one };
                assert_eq!(two, due);
            }
            (Err(one), Err(two)) => assert_eq!(one.passes, two.passes),
            (one, two) => panic!("{one:?} {two:?} {table:?}"),
        }
        let (one, two) =
            (edition2::test(&table, edition2::bound_of), edition2::test(&other, edition2::bound_of));
        assert_eq!((two.records, two.rounds), (moved(&one.records), one.rounds));
    }
}

/// Document 01's sentence by levels: preemptive tasks on a greater level, whatever they are, change no bound;
/// nor does their number.
#[test]
fn lower_preemptive_tasks_do_not_count() {
    let mut random = Random::new(101);
    let mut changed = 0;
    for table in on(FP, drawn(102, 4_000)) {
        let flags = table.flags();
        for k in 0..flags.len() {
            let lower = |i: usize| table.tasks[i].level > table.tasks[k].level && flags[i] == 1;
            let mut other = table.clone();
            for i in (0..flags.len()).filter(|&i| lower(i)) {
                let level = random.small(table.tasks[k].level + 1, 32);
                other.tasks[i] = Task { flag: 1, level, ..small_task(&mut random, 40) };
                changed += 1;
            }
            assert_eq!(bound_of(&table, &flags, k), bound_of(&other, &flags, k));
            let kept: Vec<usize> = (0..flags.len()).filter(|&i| !lower(i)).collect();
            let tasks: Vec<Task> = kept.iter().map(|&i| table.tasks[i]).collect();
            let fewer = Table { tasks, ..table.clone() };
            let at = kept.iter().position(|&i| i == k).unwrap();
            assert_eq!(bound_of(&table, &flags, k), bound_of(&fewer, &fewer.flags(), at));
        }
    }
    assert!(changed >= 2_000);
}

/// A task that goes down alone never gets a shorter bound, and the others never a longer one.
#[test]
fn going_down_a_level() {
    let mut random = Random::new(103);
    for table in on(FP, drawn(104, 4_000)) {
        let (flags, at) = (table.flags(), random.between(0, table.tasks.len() as u64 - 1) as usize);
        let mut down = table.clone();
        down.tasks[at].level = random.small(table.tasks[at].level, 32);
        let (before, after) = (bounds(&table, &flags, bound_of), bounds(&down, &flags, bound_of));
        let longest = |bound: Option<u32>| bound.unwrap_or(u32::MAX);
        assert!(longest(before[at]) <= longest(after[at]));
        for k in (0..flags.len()).filter(|&k| k != at) {
            assert!(longest(after[k]) <= longest(before[k]), "{table:?}");
        }
    }
}

// ---------------------------------------------------------------- forcing

/// Demands 2 and 3 by levels: of all flags that keep the given non-preemptive tasks, those that pass hold the
/// forced ones; 14 says that none pass.
#[test]
fn forcing_finds_the_least_flags() {
    let (mut accepted, mut refused) = (0, 0);
    let few = |table: &Table| table.policy == FP && table.tasks.len() <= 8;
    let mut tables = on(FP, drawn(105, 1_500));
    tables.extend(by_hand().into_iter().map(|case| case.table));
    tables.extend(kinds().iter().cloned());
    for table in tables.into_iter().filter(few) {
        let (given, n) = (table.flags(), table.tasks.len());
        let passes = |flags: &[u32]| bounds(&table, flags, bound_of).iter().all(|bound| bound.is_some());
        let mut passing = Vec::new();
        for word in 0..1u32 << n {
            let flags: Vec<u32> = (0..n).map(|k| given[k] & (word >> k)).collect();
            if passes(&flags) {
                passing.push(flags);
            }
        }
        match force(&table, bound_of) {
            Ok(answer) => {
                let least: Vec<u32> = answer.records.iter().map(|record| record.flag).collect();
                assert!(passing.contains(&least));
                assert!(passing.iter().all(|flags| flags.iter().zip(&least).all(|(one, two)| one <= two)));
                accepted += u32::from(answer.forced > 0);
            }
            Err(Refusal { number, passes, .. }) => {
                let preemptive: u32 = given.iter().sum();
                assert!(number == 14 && passes <= preemptive + 1 && passing.is_empty());
                refused += 1;
            }
        }
    }
    assert!(accepted >= 40 && refused >= 500, "{accepted} {refused}");
}

/// Wish 4's sentences by levels, and Wish 5's.
#[test]
fn the_second_edition_and_more_cores() {
    for table in drawn(106, 2_000).into_iter().chain(kinds().iter().cloned()) {
        let first = test(&table, bound_of).1;
        let second = edition2::test(&table, edition2::bound_of).records;
        let bounded = first.iter().zip(&second).filter(|(one, _)| one.bound > 0);
        assert!(bounded.into_iter().all(|(one, two)| 0 < two.bound && two.bound <= one.bound));
        if let Ok(one) = force(&table, bound_of) {
            let two = edition2::force(&table, edition2::bound_of).expect("edition 1 accepts it");
            assert!(one.records.iter().zip(&two.records).all(|(one, two)| two.forced <= one.forced));
        }
        let more = test(&on_cores(&table, table.cores + 1), bound_of).1;
        let bounded = first.iter().zip(&more).filter(|(one, _)| one.bound > 0);
        assert!(bounded.into_iter().all(|(one, more)| 0 < more.bound && more.bound <= one.bound));
        if let Ok(found) = fewest(&table, bound_of) {
            let accepts = |cores: u32| force(&on_cores(&table, cores), bound_of).is_ok();
            assert!((1..=16).all(|cores| accepts(cores) == (cores >= found.cores)));
        }
    }
}

// ---------------------------------------------------------------- writing

/// What is written is read back with its levels; and it is written exactly if they are the places.
#[test]
fn the_round_trip() {
    let mut written = 0;
    for table in drawn(107, 4_000) {
        let (mut buffer, size) = ([b'#'; 300], 11 + 31 * table.tasks.len());
        let said = write_at(table.cores, table.policy, &table.tasks, &mut buffer, 7);
        if table == in_places(&table) {
            assert_eq!(said, Ok(7 + size));
            assert_eq!(read(&buffer[7..7 + size]), Ok(table));
            written += 1;
        } else {
            assert_eq!((said, buffer), (refuse(18, 0), [b'#'; 300]));
        }
    }
    assert!((300..=2_000).contains(&written), "{written}");
}
