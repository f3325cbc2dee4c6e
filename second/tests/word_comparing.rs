//! The comparison of the flags word finds the wrong words, in every kind of call.

use second::compare::{self, Planner, Told, OWN};
use second::edition2_compare;
use second::fewest_compare;
use second::word::COMPARED;
use second::word_wrong::{Slip, Wrong, NOT_OF_FEWEST, WRONG};

#[test]
fn wrong_words_are_found_in_test_and_forcing() {
    for &slip in WRONG.iter().filter(|_| COMPARED) {
        assert!(edition2_compare::words(&Wrong(slip)).is_err(), "{slip:?}");
    }
    assert!(edition2_compare::words(&Wrong(Slip::Right)).is_ok());
}

#[test]
fn wrong_words_are_found_in_a_search() {
    for &slip in WRONG.iter().filter(|slip| COMPARED && !NOT_OF_FEWEST.contains(slip)) {
        assert!(fewest_compare::words(&Wrong(slip)).is_err(), "{slip:?}");
    }
    for &slip in NOT_OF_FEWEST.iter().chain(&[Slip::Right]) {
        assert!(fewest_compare::words(&Wrong(slip)).is_ok(), "{slip:?}");
    }
}

fn no_word(job: u32, text: &[u8], records: &mut [u32]) -> Told {
    ((OWN.text)(job, text, records).0, 0)
}

fn high_bit_lost(job: u32, cores: u32, policy: u32, tasks: &[u32], records: &mut [u32]) -> Told {
    let (told, word) = (OWN.list)(job, cores, policy, tasks, records);
    (told, word & u32::MAX >> 1)
}

/// In the first edition's own comparison; a planner that tells no word is not asked for it.
#[test]
fn wrong_words_are_found_in_the_first_edition() {
    for planner in [Planner { text: no_word, ..OWN }, Planner { list: high_bit_lost, ..OWN }] {
        assert_eq!(compare::words(&planner).is_err(), COMPARED);
        assert!(compare::words(&Planner { tells_word: false, ..planner }).is_ok());
    }
    assert!(compare::words(&OWN).unwrap() > 1_000);
}
