//! The reading cases: what they were made for, what they cover, and which wrong readers they give away.

use second::plan::{raised, read, write};
use second::reading_cases::{cases, expected, line_for};
use second::wrong_reading::{self, Slip, SLIPS};

#[test]
fn each_fault_is_found_where_it_was_put() {
    for case in cases() {
        if let Some((number, place)) = case.made_for {
            let refusal = read(&case.text).unwrap_err();
            let text = String::from_utf8_lossy(&case.text);
            assert_eq!((refusal.number, refusal.place), (number, place), "{text}");
        }
    }
}

#[test]
fn what_is_read_is_written_with_its_letters_raised() {
    let (mut read_cases, mut lower_cases) = (0, 0);
    for case in cases() {
        if let Ok(table) = read(&case.text) {
            assert_eq!(write(&table), raised(&case.text));
            read_cases += 1;
            lower_cases += u32::from(raised(&case.text) != case.text);
        }
    }
    assert!(read_cases >= 600 && lower_cases >= 500, "{read_cases} {lower_cases}");
}

/// A reader of upper case alone, given the raised text, answers as the reader of the text itself: a text is
/// read exactly if the raised one is a written form, and no refusal depends on the case of a letter.
#[test]
fn the_raised_text_is_answered_the_same() {
    for case in cases() {
        let said = read(&case.text);
        assert_eq!(wrong_reading::read(Slip::UpperCaseOnly, &raised(&case.text)), said);
        assert_eq!(read(&case.text.to_ascii_uppercase()), said);
        assert_eq!(read(&case.text.to_ascii_lowercase()), said);
    }
}

#[test]
fn every_refusal_stands_at_every_place() {
    let lines: std::collections::HashSet<String> = cases().iter().map(|case| expected(&case.text)).collect();
    for place in 1..=33 {
        let numbers: &[u32] = if place == 1 { &[1, 2, 3, 4, 5, 6, 7] } else { &[1, 2, 3, 4, 8, 9, 10, 11] };
        for number in numbers {
            assert!(lines.contains(&format!("refused {number} place {place} rest 0\n")));
        }
    }
    for place in [3, 4, 5, 9, 18, 33, 34] {
        assert!(lines.contains(&format!("refused 12 place {place} rest 0\n")));
    }
}

#[test]
fn the_wrong_reader_without_a_slip_is_right() {
    for case in cases() {
        assert_eq!(wrong_reading::read(Slip::None, &case.text), read(&case.text));
    }
}

#[test]
fn every_wrong_reader_is_given_away() {
    let cases = cases();
    let mut missed = Vec::new();
    for &slip in SLIPS {
        let differs = |text: &[u8]| line_for(&wrong_reading::read(slip, text)) != expected(text);
        let count = cases.iter().filter(|case| differs(&case.text)).count();
        println!("{slip:?} is given away by {count} cases");
        if count == 0 {
            missed.push(slip);
        }
    }
    assert_eq!(missed, []);
}
