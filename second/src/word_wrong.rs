//! Wrong flags words, each with one slip, beside answers that are otherwise this program's own.

use crate::edition2_compare::{own, Planner, Said};
use crate::fewest_compare::{self, Own, Searcher};
use crate::plan::read;

#[derive(Clone, Copy, Debug, PartialEq, Eq)]
pub enum Slip {
    /// No slip.
    Right,
    /// A 1 for preemptive.
    OneForPreemptive,
    /// Ones from bit n up.
    OnesFromN,
    /// Bit 31 for task 1.
    TaskOneHighest,
    /// Bit 0 for task n.
    LastTaskLowest,
    /// Bit 1 for task 1.
    OneBitTooHigh,
    /// Bit 31 is left out.
    ThirtyOneBits,
    /// The low half only.
    SixteenBits,
    /// The flags as they were sent.
    FlagsAsSent,
    /// A 1 for each forced task.
    ForcedMarks,
    /// A 1 for each task without a bound.
    WithoutBound,
    /// A 1 for each task with a bound.
    WithBound,
    /// No word with a no.
    NoneWithANo,
    /// No word from a test.
    NoneFromTheTest,
    /// No word where no task was forced.
    NoneWhereNoneIsForced,
    /// The flags as sent under 14 and 15.
    WordUnder14,
    /// The flags as sent under 13.
    WordUnder13,
    /// Zeros beyond the n-th record count as non-preemptive: all of the caller's list is looked at.
    AllOfTheList,
}

use Slip::*;

/// Those that the comparison of test and forcing must give away.
pub const WRONG: &[Slip] = &[
    OneForPreemptive,
    OnesFromN,
    TaskOneHighest,
    LastTaskLowest,
    OneBitTooHigh,
    ThirtyOneBits,
    SixteenBits,
    FlagsAsSent,
    ForcedMarks,
    WithoutBound,
    WithBound,
    NoneWithANo,
    NoneFromTheTest,
    NoneWhereNoneIsForced,
    WordUnder14,
    WordUnder13,
    AllOfTheList,
];

/// A search for the fewest cores has no test, and no record without a bound.
pub const NOT_OF_FEWEST: &[Slip] = &[NoneWithANo, NoneFromTheTest];

/// Bit by bit, from bit 0 up.
fn bits(ones: impl Iterator<Item = bool>) -> u32 {
    ones.enumerate().map(|(bit, one)| u32::from(one) << bit).sum()
}

/// What stands in an answer that is told of these records, the first n of them written.
struct Answer<'a> {
    number: u32,
    yes: bool,
    test: bool,
    word: u32,
    given: &'a [u32],
    records: &'a [u32],
}

impl Answer<'_> {
    /// What the slip makes of the word.
    fn spoiled(&self, slip: Slip) -> u32 {
        let n = self.given.len();
        let sent = bits(self.given.iter().map(|&flag| flag == 0));
        if self.number != 0 {
            return match slip {
                WordUnder14 if self.number == 14 || self.number == 15 => sent,
                WordUnder13 if self.number == 13 => sent,
                _ => self.word,
            };
        }
        let below_n = u32::MAX >> (32 - n);
        let records = || self.records.chunks(3).take(n);
        let forced = bits(records().map(|record| record[1] == 1));
        match slip {
            OneForPreemptive => !self.word & below_n,
            OnesFromN => self.word | !below_n,
            TaskOneHighest => self.word.reverse_bits(),
            LastTaskLowest => self.word.reverse_bits() >> (32 - n),
            OneBitTooHigh => self.word << 1,
            ThirtyOneBits => self.word & u32::MAX >> 1,
            SixteenBits => self.word & 0xFFFF,
            FlagsAsSent => sent,
            ForcedMarks => forced,
            WithoutBound => bits(records().map(|record| record[2] == 0)),
            WithBound => bits(records().map(|record| record[2] != 0)),
            NoneWithANo if !self.yes => 0,
            NoneFromTheTest if self.test => 0,
            NoneWhereNoneIsForced if forced == 0 => 0,
            AllOfTheList => bits(self.records.chunks(3).take(32).map(|record| record[0] != 1)),
            _ => self.word,
        }
    }
}

fn flags_of_text(text: &[u8]) -> Vec<u32> {
    read(text).map_or(Vec::new(), |table| table.flags())
}

fn flags_of_list(tasks: &[u32]) -> Vec<u32> {
    tasks.chunks(4).take(32).map(|task| task[0]).collect()
}

/// This program with the slip in its word.
pub struct Wrong(pub Slip);

impl Wrong {
    fn planner(&self, job: u32, said: Said, given: &[u32], records: &[u32]) -> Said {
        let Said { number, yes, word, .. } = said;
        let answer = Answer { number, yes, test: job == crate::compare::TEST, word, given, records };
        Said { word: answer.spoiled(self.0), ..said }
    }

    fn searcher(&self, said: fewest_compare::Said, given: &[u32], records: &[u32]) -> fewest_compare::Said {
        let (number, word) = (said.number, said.word);
        let answer = Answer { number, yes: number == 0, test: false, word, given, records };
        fewest_compare::Said { word: answer.spoiled(self.0), ..said }
    }
}

impl Planner for Wrong {
    fn text(&self, job: u32, edition: u32, text: &[u8], records: &mut [u32]) -> Said {
        let said = own().text(job, edition, text, records);
        self.planner(job, said, &flags_of_text(text), records)
    }

    fn list(&self, job: u32, edition: u32, head: [u32; 2], tasks: &[u32], records: &mut [u32]) -> Said {
        let said = own().list(job, edition, head, tasks, records);
        self.planner(job, said, &flags_of_list(tasks), records)
    }
}

impl Searcher for Wrong {
    fn text(&self, text: &[u8], records: &mut [u32]) -> fewest_compare::Said {
        let said = Own.text(text, records);
        self.searcher(said, &flags_of_text(text), records)
    }

    fn list(&self, head: [u32; 2], tasks: &[u32], records: &mut [u32]) -> fewest_compare::Said {
        let said = Own.list(head, tasks, records);
        self.searcher(said, &flags_of_list(tasks), records)
    }
}
