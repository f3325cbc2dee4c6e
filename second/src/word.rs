//! The flags in one word, as document 02's wish 7 says it: bit 0 for task 1, a 1 for non-preemptive, and
//! zeros from bit n up. An answer has the word of its records, a test's no too; a refusal has 0.

use crate::edition2;
use crate::forcing::{self, Record};
use crate::listing::refusal_line;
use crate::plan::read;
use crate::textbook;

/// Whether the word of another planner is compared. With `false` here its place has to hold 0, as it did
/// before there was a word.
pub const COMPARED: bool = true;

/// The word of these flags, the first of them being that of task 1.
pub fn word_of_flags(flags: &[u32]) -> u32 {
    let mut word = 0;
    for (bit, &flag) in flags.iter().enumerate() {
        if flag == 0 {
            word += 1 << bit;
        }
    }
    word
}

pub fn word_of(records: &[Record]) -> u32 {
    let flags: Vec<u32> = records.iter().map(|record| record.flag).collect();
    word_of_flags(&flags)
}

/// What the answer with these records is to have.
pub fn due(records: &[Record]) -> u32 {
    if COMPARED {
        word_of(records)
    } else {
        0
    }
}

/// The manifest's line for a word: eight upper-case digits, the highest first.
pub fn line(word: u32) -> String {
    format!("word {word:08X}\n")
}

/// The line for a plan as forcing under this edition accepts it, or the line of its refusal.
pub fn line_of_text(text: &[u8], edition: u32) -> String {
    let forced = read(text).and_then(|table| match edition {
        1 => forcing::force(&table, textbook::bound_of).map(|answer| answer.records),
        _ => edition2::force(&table, edition2::bound_of).map(|answer| answer.records),
    });
    match forced {
        Ok(records) => line(word_of(&records)),
        Err(refusal) => refusal_line(&refusal),
    }
}
