//! A plan as changed by forcing, written into a buffer: by hand, its refusals, and random plans.

mod common;

use common::{changed, expected, noise, random_tables, taken_apart, AS_CHANGED, AS_SENT, LENGTH};
use second::forcing::force;
use second::hand::{case_c, case_d, case_e, case_h};
use second::plan::{read, refuse, write, Refusal, Table, LONGEST_PLAN};
use second::random::Random;
use second::tables::small_table;
use second::texts::damaged;
use second::writing::write_changed;
use second::{bound, textbook};

/// Small tables that pass only after forcing.
fn forced_tables(seed: u64) -> Vec<Table> {
    let mut random = Random::new(seed);
    let drawn = std::iter::repeat_with(|| small_table(&mut random, 7, 4, 40));
    let forced = |table: &Table| force(table, textbook::bound_of).is_ok_and(|answer| answer.forced > 0);
    drawn.filter(forced).take(200).collect()
}

#[test]
fn hand_sums_as_changed() {
    for way in [bound::bound_of, textbook::bound_of] {
        let mut buffer = [b'#'; 80];
        assert_eq!(write_changed(AS_SENT, &mut buffer, 4, way), Ok(77));
        assert_eq!(buffer[..], [b"####", AS_CHANGED, b"###"].concat());
        // In lower case it is the same plan, and is written in upper case.
        let mut buffer = [b'#'; 80];
        assert_eq!(write_changed(&AS_SENT.to_ascii_lowercase(), &mut buffer, 4, way), Ok(77));
        assert_eq!(buffer[..], [b"####", AS_CHANGED, b"###"].concat());
    }
    // Case c passes as given, and is written again as it was sent.
    let text = b"01010102FB\x0A02010000000C000000040000000BE2\x0A0201000000180000000900000012CA\x0A";
    assert_eq!(text[..], write(&case_c()));
    assert_eq!(changed(text, &[0; LENGTH], 0), (Ok(LENGTH), text.to_vec()));
}

#[test]
fn changing_refuses_as_forcing_does_and_then_16() {
    let fourteen = |place, passes| Err(Refusal { number: 14, place, passes });
    let late = [AS_SENT, b"0"].concat();
    for (text, said) in [
        (b"".to_vec(), refuse(1, 1)),
        (AS_SENT[..LENGTH - 1].to_vec(), refuse(1, 3)),
        ([&AS_SENT[..LENGTH - 2], b"g\x0A"].concat(), refuse(2, 3)),
        (b"01010102FA\x0A".to_vec(), refuse(3, 1)),
        (b"02010102FA\x0A".to_vec(), refuse(4, 1)),
        (b"01000102FC\x0A".to_vec(), refuse(5, 1)),
        (b"01010202FA\x0A".to_vec(), refuse(6, 1)),
        (b"01010100FD\x0A".to_vec(), refuse(7, 1)),
        (b"01010101FC\x0A02020000000C000000040000000CE0\x0A".to_vec(), refuse(8, 2)),
        (b"01010101FC\x0A020100000000000000040000000CED\x0A".to_vec(), refuse(9, 2)),
        (b"01010101FC\x0A02010000000C000000040000000DE0\x0A".to_vec(), refuse(10, 2)),
        (b"01010101FC\x0A02010000000C0000000D0000000CD8\x0A".to_vec(), refuse(11, 2)),
        (late, refuse(12, 4)),
        (write(&case_d()), fourteen(1, 2)),
        (write(&case_e()), fourteen(1, 3)),
        (write(&case_h()), fourteen(2, 4)),
    ] {
        for (size, start) in [(0, 0), (200, 0), (200, 200), (200, 201), (200, usize::MAX)] {
            let buffer = vec![b'#'; size];
            assert_eq!(changed(&text, &buffer, start), (said, buffer));
        }
    }
    for (size, start) in [(0, 0), (72, 0), (200, 128), (200, 200), (200, 201), (200, usize::MAX)] {
        let buffer = vec![b'#'; size];
        assert_eq!(changed(AS_SENT, &buffer, start), (refuse(16, 0), buffer));
    }
    assert_eq!(changed(AS_SENT, &[0; 200], 127).0, Ok(200));
}

/// What is written differs from what was sent in the flags alone, is forced no further, and needs one
/// pass; a refused plan writes nothing.
#[test]
fn random_plans_as_changed() {
    let mut random = Random::new(36);
    let (mut forced, mut refused) = (0, 0);
    for table in random_tables(37).into_iter().chain(forced_tables(37)) {
        let text = write(&table);
        let start = random.small(0, 20) as usize;
        let buffer = noise(&mut random, start + text.len() + 9);
        let (said, now) = changed(&text, &buffer, start);
        let answer = match force(&table, textbook::bound_of) {
            Ok(answer) => answer,
            Err(refusal) => {
                assert_eq!((said, now), (Err(refusal), buffer));
                refused += 1;
                continue;
            }
        };
        let mut wanted = table.clone();
        for k in 0..wanted.tasks.len() {
            wanted.tasks[k].flag -= answer.records[k].forced;
        }
        assert_eq!((said, now.clone()), expected(&write(&wanted), &buffer, start));
        let again = &now[start..start + text.len()];
        assert_eq!(taken_apart(again), wanted);
        assert_eq!(changed(again, &buffer, start), (said, now.clone()));
        let last = force(&wanted, textbook::bound_of).unwrap();
        assert_eq!((last.forced, last.passes), (0, 1));
        forced += u32::from(answer.forced > 0);
    }
    assert!(forced >= 200 && refused >= 100);
}

#[test]
fn damaged_plans_are_refused_as_by_reading() {
    let mut random = Random::new(38);
    let mut refused = 0;
    for table in random_tables(39) {
        let text = damaged(&mut random, &table);
        if let Err(refusal) = read(&text) {
            let buffer = noise(&mut random, LONGEST_PLAN);
            let start = random.pick(&[0, LONGEST_PLAN, usize::MAX]);
            assert_eq!(changed(&text, &buffer, start), (Err(refusal), buffer));
            refused += 1;
        }
    }
    assert!(refused >= 100);
}
