//! The flags word by hand, as text, and what document 02's wish 7 says of it: the forced count is the count
//! of ones in the changed bits, and the place of 14 is that of the lowest one in the word of failing tasks.

use second::forcing::{bounds, force, test, Forced, Record};
use second::hand::{case_a, case_c, case_d, case_e, many};
use second::plan::{write, Refusal, Table};
use second::random::Random;
use second::tables::{near_edge, small_table};
use second::word::{line, line_of_text, word_of, word_of_flags};
use second::word_tables::{all_forced, tables};
use second::{edition2, textbook};

fn forced(table: &Table) -> Result<Forced, Refusal> {
    force(table, textbook::bound_of)
}

fn tested(table: &Table) -> Vec<Record> {
    test(table, textbook::bound_of).1
}

// ---------------------------------------------------------------- by hand

#[test]
fn bit_by_bit() {
    assert_eq!(word_of_flags(&[]), 0);
    assert_eq!(word_of_flags(&[1]), 0);
    assert_eq!(word_of_flags(&[0]), 1);
    assert_eq!(word_of_flags(&[0, 1]), 1);
    assert_eq!(word_of_flags(&[1, 0]), 2);
    assert_eq!(word_of_flags(&[0, 0]), 3);
    assert_eq!(word_of_flags(&[1, 1, 0, 1, 0]), 4 + 16);
    assert_eq!(word_of_flags(&[0; 31]), 0x7FFF_FFFF);
    assert_eq!(word_of_flags(&[0; 32]), 0xFFFF_FFFF);
    assert_eq!(word_of_flags(&[1; 32]), 0);
    for k in 0..32 {
        let mut flags = [1; 32];
        flags[k] = 0;
        assert_eq!(word_of_flags(&flags), 2u32.pow(k as u32));
        assert_eq!(word_of_flags(&flags[..k]), 0);
    }
}

/// Cases a and b, c, d: as given and after forcing.
#[test]
fn hand_sums() {
    assert_eq!(word_of(&tested(&case_a())), 0);
    assert_eq!(word_of(&forced(&case_a()).unwrap().records), 3);
    assert_eq!(word_of(&forced(&case_c()).unwrap().records), 0);
    assert_eq!(word_of(&tested(&case_d())), 2);
    assert_eq!(forced(&case_d()), Err(Refusal { number: 14, place: 1, passes: 2 }));
    let every_other = word_of(&tested(&many(32)));
    assert_eq!(every_other, 0xAAAA_AAAA);
    let all = forced(&all_forced()).unwrap();
    assert_eq!((all.forced, all.passes, word_of(&all.records)), (32, 33, 0xFFFF_FFFF));
}

// ---------------------------------------------------------------- as text

#[test]
fn the_manifests_line() {
    assert_eq!(line(0), "word 00000000\n");
    assert_eq!(line(3), "word 00000003\n");
    assert_eq!(line(10), "word 0000000A\n");
    assert_eq!(line(0x89AB_CDEF), "word 89ABCDEF\n");
    assert_eq!(line(0x8000_0000), "word 80000000\n");
    assert_eq!(line(u32::MAX), "word FFFFFFFF\n");
}

#[test]
fn the_line_of_a_plan() {
    for edition in [1, 2] {
        assert_eq!(line_of_text(&write(&case_c()), edition), "word 00000000\n");
        assert_eq!(line_of_text(b"", edition), "refused 1 place 1\n");
        assert_eq!(line_of_text(&write(&many(33)), edition), "refused 7 place 1\n");
    }
    assert_eq!(line_of_text(&write(&case_a()), 1), "word 00000003\n");
    // Under the second edition case a passes as given.
    assert_eq!(line_of_text(&write(&case_a()), 2), "word 00000000\n");
    assert_eq!(line_of_text(&write(&case_e()), 1), "refused 14 place 1 passes 3\n");
    assert_eq!(line_of_text(&write(&case_e()), 2), "refused 15 place 1 passes 3\n");
    assert_eq!(line_of_text(&write(&all_forced()), 1), "word FFFFFFFF\n");
    // In lower case it is the same plan, and the same line.
    let small = write(&all_forced()).to_ascii_lowercase();
    assert_eq!(line_of_text(&small, 1), "word FFFFFFFF\n");
}

/// The line read digit by digit, the last digit holding tasks 1 to 4, is the list of flags again.
fn flags_of_line(line: &str) -> Vec<u32> {
    let digits = line.strip_prefix("word ").unwrap().strip_suffix('\n').unwrap();
    assert_eq!(digits.len(), 8);
    let mut flags = Vec::new();
    for digit in digits.bytes().rev() {
        let value = "0123456789ABCDEF".bytes().position(|known| known == digit).unwrap();
        flags.extend([1, 2, 4, 8].map(|bit| u32::from(value / bit % 2 == 0)));
    }
    flags
}

/// Tables of every kind.
fn drawn() -> Vec<Table> {
    let mut random = Random::new(71);
    let mut all = tables().to_vec();
    all.extend((0..3_000).map(|_| small_table(&mut random, 32, 8, 60)));
    all.extend(near_edge(72).take(40));
    all
}

#[test]
fn the_line_holds_the_flags() {
    for table in drawn() {
        let n = table.tasks.len();
        let flags = flags_of_line(&line(word_of(&tested(&table))));
        assert_eq!(flags[..n], table.flags());
        assert!(flags[n..].iter().all(|&flag| flag == 1));
        if let Ok(answer) = forced(&table) {
            let flags = flags_of_line(&line(word_of(&answer.records)));
            assert!(answer.records.iter().zip(&flags).all(|(record, &flag)| record.flag == flag));
            assert!(flags[n..].iter().all(|&flag| flag == 1));
        }
    }
}

// ---------------------------------------------------------------- what the wish says of it

/// The word of the tasks without a bound.
fn failing(found: &[Option<u32>]) -> u32 {
    let flags: Vec<u32> = found.iter().map(|bound| u32::from(bound.is_some())).collect();
    word_of_flags(&flags)
}

/// Forcing with the flags in a word, from the wish's words alone: the flags are bits, those of the failing
/// preemptive tasks are set together, the count and the place are found from the bits.
fn force_by_word(table: &Table) -> Result<(u32, u32, u32), Refusal> {
    let given = word_of_flags(&table.flags());
    let mut word = given;
    for passes in 1.. {
        let flags: Vec<u32> = (0..table.tasks.len()).map(|k| 1 - (word >> k) % 2).collect();
        let without = failing(&bounds(table, &flags, textbook::bound_of));
        if without & !word != 0 {
            word |= without;
        } else if without == 0 {
            return Ok((word, (word ^ given).count_ones(), passes));
        } else {
            return Err(Refusal { number: 14, place: without.trailing_zeros() + 1, passes });
        }
    }
    unreachable!()
}

#[test]
fn forcing_by_word_is_forcing() {
    let (mut accepted, mut refused, mut high) = (0, 0, 0);
    for table in drawn() {
        let by_word = force_by_word(&table);
        match forced(&table) {
            Ok(answer) => {
                assert_eq!(by_word, Ok((word_of(&answer.records), answer.forced, answer.passes)));
                accepted += u32::from(answer.forced > 0);
                high += word_of(&answer.records) >> 31;
            }
            Err(refusal) => {
                assert_eq!(by_word, Err(refusal));
                refused += 1;
            }
        }
    }
    assert!(accepted >= 50 && refused >= 1_000 && high >= 30, "{accepted} {refused} {high}");
}

/// The second edition: the same count, and the place of 15.
#[test]
fn the_second_editions_counts() {
    let (mut accepted, mut refused) = (0, 0);
    let mut random = Random::new(73);
    for table in (0..2_000).map(|_| small_table(&mut random, 8, 3, 40)) {
        let given = word_of_flags(&table.flags());
        match edition2::force(&table, edition2::bound_of) {
            Ok(answer) => {
                assert_eq!(answer.forced, (word_of(&answer.records) ^ given).count_ones());
                assert_eq!(word_of(&answer.records) & given, given);
                accepted += u32::from(answer.forced > 0);
            }
            Err(refusal) => {
                let last = edition2::tested(&table, &vec![0; table.tasks.len()], edition2::bound_of);
                assert_eq!(refusal.place, failing(&last.bounds).trailing_zeros() + 1);
                refused += 1;
            }
        }
    }
    assert!(accepted >= 20 && refused >= 500, "{accepted} {refused}");
}
