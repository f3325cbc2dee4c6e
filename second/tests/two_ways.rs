//! The literal search and the textbook iteration find the same bounds.

use second::bound;
use second::plan::{Table, LONGEST_PERIOD};
use second::random::Random;
use second::tables::{all_small_tables, all_tables, next_edge_pair, small_table};
use second::textbook;

fn same(table: &Table) {
    let flags = table.flags();
    for k in 0..table.tasks.len() {
        let literal = bound::bound_of(table, &flags, k);
        assert_eq!(literal, textbook::bound_of(table, &flags, k), "task {} of {table:?}", k + 1);
        if let Some(bound) = literal {
            assert!(table.tasks[k].cost <= bound && bound <= table.tasks[k].deadline);
        }
    }
}

#[test]
fn on_all_small_tables() {
    assert_eq!(all_small_tables().count(), 393_840);
    for table in all_small_tables() {
        same(&table);
    }
}

#[test]
fn on_pairs_with_longer_periods() {
    for table in all_tables(6, 2, 2) {
        same(&table);
    }
}

#[test]
fn on_random_small_tables() {
    let mut random = Random::new(1);
    for _ in 0..40_000 {
        same(&small_table(&mut random, 8, 4, 40));
    }
}

#[test]
fn on_tables_near_the_edge() {
    let mut random = Random::new(2);
    for round in 0..300 {
        let (inside, outside) = next_edge_pair(&mut random, round % 2, 12, 500);
        same(&inside);
        same(&outside);
    }
}

#[test]
fn on_one_table_with_the_longest_period() {
    let mut random = Random::new(3);
    for policy in [0, 1] {
        let (inside, _) = next_edge_pair(&mut random, policy, 4, LONGEST_PERIOD);
        same(&inside);
    }
}
