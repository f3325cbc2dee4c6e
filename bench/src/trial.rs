//! The sides compared on tables and texts that no file holds: small tables, tables near the edge of
//! acceptance and the first tables of the hunt, under both jobs, and plan texts with a byte or two damaged.

use crate::mutate::{changed, first};
use crate::plans::Plan;
use crate::sides::{compare, compare_text, Job};
use second::plan::Table;
use second::random::Random;
use second::tables::{near_edge, small_table};

/// Longer periods make the textbook iteration slow on the hunt's tables.
const LONGEST: u32 = 3_000;

/// Compares so many tables of each kind, and as many texts; stops at the first difference.
pub fn run(count: usize, seed: u64) {
    let mut random = Random::new(seed);
    let mut edge = near_edge(seed);
    for _ in 0..count {
        let (policy, cores, n) = (random.small(0, 1), random.small(1, 16), random.small(1, 32) as usize);
        let start = first(&mut random, policy, cores, n, LONGEST);
        let slow = changed(&mut random, &start, LONGEST);
        let near = edge.next().expect("the tables near the edge have no end");
        for table in [small_table(&mut random, 8, 4, 24), slow, near] {
            both(&table);
            damaged(&mut random, &table);
        }
    }
    println!("{} tables and as many damaged texts: all alike", 3 * count);
}

fn both(table: &Table) {
    let plan = Plan::of(table);
    compare(Job::Test, &plan, true);
    compare(Job::Force, &plan, true);
}

/// A text with one or two bytes changed, cut short, or lengthened.
fn damaged(random: &mut Random, table: &Table) {
    let mut text = Plan::of(table).text;
    for _ in 0..random.small(1, 2) {
        let at = random.between(0, text.len() as u64 - 1) as usize;
        match random.small(0, 5) {
            0 => text.truncate(at.max(1)),
            1 => text.push(b'0'),
            _ => text[at] = random.pick(b"0123456789ABCDEFabcdef\n /:@G`g\xFF"),
        }
    }
    compare_text(Job::Force, &text);
}
