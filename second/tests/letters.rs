//! Letters in either case: what is read, what is refused, and what is written then.

use second::letter_cases::*;
use second::plan::{raised, read, refuse, write, Table};
use second::random::Random;
use second::reading_cases::{cases, one_task, three_tasks};
use second::tables::small_table;
use second::texts::{damaged, lower_some};

fn tables() -> Vec<Table> {
    let mut random = Random::new(60);
    let mut tables = vec![one_task(), three_tasks(), one_of_letters(), eleven_of_letters()];
    tables.extend((0..60).map(|_| small_table(&mut random, 5, 16, 1_000_000)));
    tables
}

/// By hand: the plan of one task on 13 cores, whose letters stand in every field that may have one. The
/// check of the head is F1, as 1 + 13 + 0 + 1 + 241 = 256. The frame of the task sums to
/// 2 + 1 + (14 + 220 + 186) + (10 + 188 + 222) + (12 + 222 + 250) = 1327 = 5 * 256 + 47, and 256 - 47 = D1.
#[test]
fn one_plan_in_three_writings() {
    let table = one_of_letters();
    for text in [
        &b"010D0001F1\x0A0201000EDCBA000ABCDE000CDEFAD1\x0A"[..],
        b"010d0001f1\x0A0201000edcba000abcde000cdefad1\x0A",
        b"010d0001F1\x0A0201000EdCbA000aBcDe000cdEFAd1\x0A",
    ] {
        assert_eq!(read(text), Ok(table.clone()));
        assert_eq!(write(&table), raised(text));
    }
    assert_eq!(raised(b"/09:@AFG`afgz\x0A\xE1"), b"/09:@AFG`AFgz\x0A\xE1");
}

/// All ways to lower the letters of a small plan.
#[test]
fn every_choice_of_letters() {
    let text = write(&one_of_letters());
    let places = letters(&text);
    assert_eq!(places.len(), 18);
    for choice in 0u32..1 << places.len() {
        let mut other = text.clone();
        for (count, &at) in places.iter().enumerate() {
            if choice >> count & 1 == 1 {
                other[at].make_ascii_lowercase();
            }
        }
        assert_eq!(read(&other), Ok(one_of_letters()));
    }
}

#[test]
fn each_letter_alone_and_parts() {
    for table in tables() {
        let text = write(&table);
        for at in letters(&text) {
            assert_eq!(read(&lowered_part(&text, at, at + 1)), Ok(table.clone()));
            assert_eq!(read(&lowered_part(&text, 0, at)), Ok(table.clone()));
        }
        for way in WAYS {
            assert_eq!(read(&lowered(&text, way)), Ok(table.clone()));
            assert_eq!(raised(&lowered(&text, way)), text);
        }
    }
}

/// Every byte at every digit: exactly the 22 digits are digits, each with its value.
#[test]
fn every_byte_at_every_digit() {
    let text = write(&one_of_letters());
    for at in (0..text.len()).filter(|&at| text[at] != b'\n') {
        let line = if at < 11 { 1 } else { 2 };
        for byte in 0..=255u8 {
            let mut other = text.clone();
            other[at] = byte;
            let said = read(&other);
            let digit = b"0123456789ABCDEF".iter().position(|&digit| digit == byte.to_ascii_uppercase());
            let due = b"0123456789ABCDEF".iter().position(|&digit| digit == text[at]);
            match digit {
                None => assert_eq!(said, refuse(2, line)),
                Some(_) if digit == due => assert_eq!(said, Ok(one_of_letters())),
                Some(_) => assert_eq!(said, refuse(3, line)),
            }
        }
    }
}

/// Random damage, then random lowering: the answer stays.
#[test]
fn damaged_texts() {
    let mut random = Random::new(61);
    let (mut accepted, mut refused) = (0, 0);
    for table in tables().iter().cycle().take(6_000) {
        let text = damaged(&mut random, table);
        let said = read(&text);
        let mut other = raised(&text);
        assert_eq!(read(&other), said);
        lower_some(&mut random, &mut other);
        assert_eq!(read(&other), said);
        match said {
            Ok(table) => {
                assert_eq!(write(&table), raised(&text));
                accepted += 1;
            }
            Err(_) => refused += 1,
        }
    }
    assert!(accepted >= 500 && refused >= 2_000, "{accepted} {refused}");
}

/// Each refusal that reading has stands with a lower-case letter in its own line, at or before its place.
#[test]
fn lower_case_with_every_refusal() {
    let mut seen = std::collections::HashSet::new();
    for case in cases() {
        if let Err(refusal) = read(&case.text) {
            let mut lines = case.text.split(|&byte| byte == b'\n').take(refusal.place as usize);
            if lines.any(|line| line.iter().any(|byte| (b'a'..=b'f').contains(byte))) {
                seen.insert((refusal.number, refusal.place.min(4)));
            }
        }
    }
    for number in [1, 2, 3, 4, 5, 6, 7] {
        assert!(seen.contains(&(number, 1)), "{number}");
    }
    for number in [1, 2, 3, 4, 8, 9, 10, 11] {
        assert!((2..=4).all(|place| seen.contains(&(number, place))), "{number}");
    }
    assert!(seen.contains(&(12, 3)) && seen.contains(&(12, 4)));
}
