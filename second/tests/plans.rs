//! The plan cases: what they cover, and which wrong planners they give away.

use second::corpus;
use second::forcing::force;
use second::hunt::catches;
use second::listing::listing;
use second::plan::{read, Table};
use second::plan_cases::{cases, expected};
use second::random::Random;
use second::slips::{Slip, SAME, WRONG};
use second::tables::{all_small_tables, next_edge_pair, small_table};
use second::wrong;
use second::{bound, textbook};
use std::sync::OnceLock;

/// Some wrong planners take long over large tables; the others are enough to give them away.
fn quick_tables() -> Vec<Table> {
    let quick = |table: &Table| table.tasks.iter().all(|task| task.period <= 2_000);
    tables().into_iter().filter(quick).collect()
}

/// The cases are made once for all tests.
fn texts() -> &'static [Vec<u8>] {
    static TEXTS: OnceLock<Vec<Vec<u8>>> = OnceLock::new();
    TEXTS.get_or_init(cases)
}

fn tables() -> Vec<Table> {
    texts().iter().filter_map(|text| read(text).ok()).collect()
}

#[test]
fn every_wrong_planner_is_given_away() {
    let tables = quick_tables();
    let mut missed = Vec::new();
    for wrong in WRONG {
        let count = tables.iter().filter(|table| catches(table, wrong.slip)).count();
        println!("{} is given away by {count} cases", wrong.name);
        if count == 0 {
            missed.push(wrong.name);
        }
    }
    assert_eq!(missed, Vec::<&str>::new());
}

#[test]
fn the_wrong_planner_without_a_slip_is_right() {
    for table in tables() {
        assert!(!catches(&table, Slip::None));
    }
}

#[test]
fn slips_that_change_nothing() {
    let mut random = Random::new(4);
    let mut drawn: Vec<Table> = (0..3_000).map(|_| small_table(&mut random, 6, 4, 30)).collect();
    drawn.extend((0..60).map(|count| next_edge_pair(&mut random, count % 2, 8, 200).0));
    drawn.extend(quick_tables());
    drawn.extend(all_small_tables().step_by(7));
    for same in SAME {
        for table in &drawn {
            assert!(!catches(table, same.slip), "{} shows on {table:?}", same.name);
        }
    }
}

/// Ties alone: the wrong planner without ties must be right on this one, so that the tie shows.
#[test]
fn a_table_of_the_corpus_shows_ties_alone() {
    let (_, ties) = corpus::catching().into_iter().find(|(name, _)| *name == "edf-equal-deadlines").unwrap();
    assert!(catches(&ties, Slip::EdfBlockingNotLessenedTies));
    assert!(!catches(&ties, Slip::EdfBlockingNotLessened));
}

#[test]
fn the_cases_cover_what_is_rare() {
    let listings: Vec<String> = texts().iter().map(|text| expected(text)).collect();
    let count = |word: &str| listings.iter().filter(|listing| listing.contains(word)).count();
    for passes in 2..=5 {
        let accepted = listings.iter().filter(|listing| {
            listing.starts_with("plan") && listing.ends_with(&format!("passes {passes}\n"))
        });
        assert!(accepted.count() >= 5, "accepted after {passes} passes");
    }
    for place in 1..=6 {
        assert!(count(&format!("refused 14 place {place} ")) >= 3);
    }
    assert!(count("plan EDF") >= 50 && count("plan FP") >= 50);
    assert!(count("tasks 32\n") >= 10 && count("cores 16 ") >= 3);
}

#[test]
fn corpus_plans_are_what_their_names_say() {
    for (name, text) in corpus::good() {
        assert!(listing(&text, textbook::bound_of).starts_with("plan "), "{name}");
    }
    for ((name, table), passes) in corpus::many_passes().iter().zip([5, 7, 9, 5, 6]) {
        assert_eq!(force(table, bound::bound_of).unwrap().passes, passes, "{name}");
    }
    for (name, text) in corpus::bad() {
        let number: u32 = name[..2].parse().unwrap();
        let line = listing(&text, bound::bound_of);
        assert!(line.starts_with(&format!("refused {number} ")), "{name}: {line}");
    }
}

#[test]
fn slips_show_in_listings_of_texts_too() {
    let text = &texts()[0];
    assert_eq!(wrong::listing(Slip::None, text), expected(text));
}
