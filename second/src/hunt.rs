//! Finds small tables on which a wrong planner answers otherwise than it should.

use crate::forcing::force;
use crate::listing::listing_of_table;
use crate::plan::Table;
use crate::random::Random;
use crate::slips::Slip;
use crate::tables::{all_tables, small_table};
use crate::textbook;
use crate::wrong;

/// Whether the table gives the slip away.
pub fn catches(table: &Table, slip: Slip) -> bool {
    wrong::listing_of_table(slip, table) != listing_of_table(table, textbook::bound_of)
}

/// Tables in order of size: all the smallest, then random ones that grow.
fn candidates() -> impl Iterator<Item = Table> {
    let mut random = Random::new(20);
    let drawn = (0..4_000_000u32).map(move |count| {
        let most = 3 + count / 800_000;
        small_table(&mut random, most, 3, 8 + 2 * most)
    });
    all_tables(5, 2, 2).chain(all_tables(3, 3, 2)).chain(drawn)
}

/// The first table that gives the slip away, preferably one that is accepted after forcing, since then all
/// of the listing is compared.
pub fn smallest(slip: Slip) -> Option<Table> {
    let accepted = |table: &Table| force(table, textbook::bound_of).is_ok();
    let mut refused = None;
    for table in candidates() {
        if catches(&table, slip) {
            if accepted(&table) {
                return Some(table);
            }
            refused.get_or_insert(table);
        }
    }
    refused
}
