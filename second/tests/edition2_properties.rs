//! What document 02's Wish 4 says of every table, on random ones with small times.

use second::edition2::{self, force, round, slacks_after, tested, to_be_forced};
use second::edition2_hunt::{edge_pair, most_rounds};
use second::forcing;
use second::plan::{Table, EDF, FP};
use second::random::Random;
use second::tables::{all_tables, small_table};
use second::{bound, edition2_bound, edition2_textbook};

/// No bound is above every bound.
fn or_above(bound: Option<u32>) -> u32 {
    bound.unwrap_or(u32::MAX)
}

/// The rounds of one test, each looked at; the count of rounds.
fn look_at_rounds(table: &Table, flags: &[u32]) -> u32 {
    let n = table.tasks.len();
    let mut slacks = vec![0; n];
    let old = forcing::bounds(table, flags, bound::bound_of);
    let mut before = old.clone();
    for rounds in 1.. {
        let bounds = round(table, flags, &slacks, edition2_bound::bound_of);
        assert_eq!(bounds, round(table, flags, &slacks, edition2_textbook::bound_of), "{table:?} {flags:?}");
        assert_eq!(bounds, round(table, flags, &slacks, edition2_textbook::bound_by_leaps), "{table:?}");
        if rounds == 1 {
            assert_eq!(bounds, old, "the first round is edition 1's test: {table:?}");
        }
        let next = slacks_after(table, &slacks, &bounds);
        for k in 0..n {
            assert!(next[k] >= slacks[k], "slacks never fall: {table:?}");
            assert!(or_above(bounds[k]) <= or_above(before[k]), "bounds never rise: {table:?}");
            assert!(bounds[k].is_some() || slacks[k] == 0, "no bound, no slack: {table:?}");
        }
        if next == slacks {
            let last = tested(table, flags, edition2::bound_of);
            assert_eq!((last.slacks, last.bounds, last.rounds), (slacks, bounds.clone(), rounds));
            assert!(
                (0..n).all(|k| or_above(bounds[k]) <= or_above(old[k])),
                "never above edition 1: {table:?}"
            );
            let span = |k: usize| table.tasks[k].deadline - table.tasks[k].cost;
            assert!(rounds <= 1 + (0..n).map(span).sum::<u32>(), "at most 1 + the sum of D - C: {table:?}");
            return rounds;
        }
        (slacks, before) = (next, bounds);
    }
    unreachable!()
}

/// All tests of a forcing, looked at. Each changes a flag, none is changed that was given as 0.
fn look_at_forcing(table: &Table) -> u32 {
    let mut flags = table.flags();
    let mut most = 0;
    for passes in 1.. {
        let rounds = look_at_rounds(table, &flags);
        most = most.max(rounds);
        let last = tested(table, &flags, edition2::bound_of);
        let next = to_be_forced(&flags, &last.bounds);
        let preemptive = table.flags().iter().sum::<u32>();
        assert!(passes <= preemptive + 1);
        if last.passes() || next.is_empty() {
            match force(table, edition2::bound_of) {
                Ok(answer) => {
                    assert!(last.passes() && (answer.passes, answer.rounds) == (passes, rounds));
                    let shown: Vec<u32> = answer.records.iter().map(|record| record.flag).collect();
                    assert_eq!(shown, flags);
                }
                Err(refusal) => {
                    assert!(!last.passes() && flags.iter().all(|&flag| flag == 0));
                    let lowest = last.bounds.iter().position(|bound| bound.is_none()).unwrap();
                    assert_eq!((refusal.number, refusal.place as usize), (15, lowest + 1));
                    assert_eq!(refusal.passes, passes);
                }
            }
            return most;
        }
        next.iter().for_each(|&k| assert_eq!(flags[k], 1));
        next.into_iter().for_each(|k| flags[k] = 0);
    }
    unreachable!()
}

/// What edition 1's forcing accepts, edition 2's accepts too, and forces no task beyond.
fn look_at_editions(table: &Table) -> (bool, bool) {
    let old = forcing::force(table, bound::bound_of);
    let new = force(table, edition2::bound_of);
    if let Ok(old) = &old {
        let new = new.as_ref().unwrap_or_else(|_| panic!("accepted by edition 1: {table:?}"));
        for (old, new) in old.records.iter().zip(&new.records) {
            assert!(new.forced <= old.forced, "{table:?}");
        }
    }
    (old.is_ok(), new.is_ok())
}

#[test]
fn random_tables() {
    let mut random = Random::new(70);
    let (mut both, mut only_new, mut neither, mut most) = (0, 0, 0, 0);
    for _ in 0..6_000 {
        let table = small_table(&mut random, 6, 3, 24);
        most = most.max(look_at_forcing(&table));
        match look_at_editions(&table) {
            (true, _) => both += 1,
            (false, true) => only_new += 1,
            (false, false) => neither += 1,
        }
    }
    assert!(both > 1_000 && only_new > 200 && neither > 1_000, "{both} {only_new} {neither}");
    assert!(most >= 8, "{most}");
}

#[test]
fn all_pairs_of_short_tasks() {
    for table in all_tables(4, 2, 1) {
        look_at_forcing(&table);
        look_at_editions(&table);
    }
}

#[test]
fn tables_near_the_edge() {
    let mut random = Random::new(71);
    for _ in 0..40 {
        let (inside, outside) = edge_pair(&mut random, 10, 150);
        for table in [inside, outside] {
            look_at_forcing(&table);
            look_at_editions(&table);
        }
    }
}

/// Under slacks that no rounds have led to, from 0 to D - C, the three searches agree as well.
#[test]
fn three_searches_under_any_slacks() {
    let mut random = Random::new(72);
    let mut differences = 0;
    for _ in 0..6_000 {
        let table = small_table(&mut random, 6, 3, 60);
        let spans = table.tasks.iter().map(|task| task.deadline - task.cost);
        let slacks: Vec<u32> = spans.map(|span| random.small(0, span)).collect();
        let flags: Vec<u32> = table.tasks.iter().map(|_| random.small(0, 1)).collect();
        for k in 0..flags.len() {
            let literal = edition2_bound::bound_of(&table, &flags, &slacks, k);
            assert_eq!(
                literal,
                edition2_textbook::bound_of(&table, &flags, &slacks, k),
                "{table:?} {slacks:?}"
            );
            assert_eq!(literal, edition2_textbook::bound_by_leaps(&table, &flags, &slacks, k), "{table:?}");
            let difference = edition2_bound::largest_difference(&table, &flags, &slacks, k);
            differences += u32::from(difference > 0);
            assert!(difference == 0 || table.policy == EDF && flags[k] == 0);
        }
    }
    assert!(differences > 1_000, "{differences}");
}

/// With longer times the iteration and the search by leaps agree under any slacks, and the search over every
/// length on some of them.
#[test]
fn longer_times_under_any_slacks() {
    let mut random = Random::new(73);
    for count in 0..300 {
        let table = small_table(&mut random, 8, 4, if count % 10 == 0 { 300_000 } else { 5_000 });
        let spans = table.tasks.iter().map(|task| task.deadline - task.cost);
        let slacks: Vec<u32> = spans.map(|span| random.small(0, span)).collect();
        let flags = table.flags();
        for k in 0..flags.len() {
            let leaps = edition2_textbook::bound_by_leaps(&table, &flags, &slacks, k);
            assert_eq!(
                leaps,
                edition2_textbook::bound_of(&table, &flags, &slacks, k),
                "{table:?} {slacks:?}"
            );
            if count % 10 == 1 {
                assert_eq!(leaps, edition2_bound::bound_of(&table, &flags, &slacks, k), "{table:?}");
            }
        }
    }
}

/// A climb finds many rounds under both policies.
#[test]
fn climbs_to_many_rounds() {
    let mut random = Random::new(74);
    assert!(most_rounds(&mut random, [EDF, 1, 2, 300], 4, 600).0 >= 20);
    assert!(most_rounds(&mut random, [FP, 2, 4, 300], 4, 600).0 >= 6);
}
