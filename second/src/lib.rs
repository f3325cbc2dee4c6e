//! An independent second program for the planner of document 01.
//!
//! Nothing here is shared with the planner: every rule was written afresh from the document, as literally
//! as plain Rust allows. The planner is compared with it; it is meant to be read beside the document.

// The rules are written as the document writes them, even where a shorter form exists.
#![allow(clippy::int_plus_one, clippy::manual_is_multiple_of)]

pub mod batch;
pub mod bound;
pub mod compare;
pub mod compare_writing;
pub mod corpus;
pub mod edition2;
pub mod edition2_bound;
pub mod edition2_cases;
pub mod edition2_compare;
pub mod edition2_hunt;
pub mod edition2_slips;
pub mod edition2_textbook;
pub mod edition2_wrong;
pub mod fewest;
pub mod fewest_compare;
pub mod fewest_tables;
pub mod fewest_wrong;
pub mod forcing;
pub mod hand;
pub mod hunt;
pub mod letter_cases;
pub mod levels;
pub mod levels_bound;
pub mod levels_compare;
pub mod levels_slips;
pub mod levels_tables;
pub mod levels_wrong;
pub mod levels_wrong_checks;
pub mod listing;
pub mod plan;
pub mod plan_cases;
pub mod random;
pub mod reading_cases;
pub mod reading_slips;
pub mod slips;
pub mod tables;
pub mod textbook;
pub mod texts;
pub mod word;
pub mod word_tables;
pub mod word_wrong;
pub mod writing;
pub mod writing_cases;
pub mod wrong;
pub mod wrong_bound;
pub mod wrong_reading;
