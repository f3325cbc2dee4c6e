//! The writer against document 01's bytes, a reader of the tests' own, and `plan::write`.

mod common;

use common::{changed, expected, noise, random_tables, taken_apart, Said, AS_CHANGED, AS_SENT, LENGTH};
use second::hand::case_a;
use second::plan::{check_list, raised, read, refuse, write, Table, Task, LONGEST_PLAN};
use second::random::Random;
use second::texts::{damaged, off_border};
use second::writing::write_at;

/// What is said, and the buffer afterwards.
fn written(table: &Table, buffer: &[u8], start: usize) -> Said {
    let mut buffer = buffer.to_vec();
    (write_at(table.cores, table.policy, &table.tasks, &mut buffer, start), buffer)
}

fn one(task: Task) -> Table {
    Table::in_places(16, 0, &[task])
}

const LEGAL: Task = Task::of_four(1, 12, 4, 12);

// ------------------------------------------------------------ by hand

#[test]
fn the_documents_plan() {
    assert_eq!(AS_SENT.len(), LENGTH);
    assert_eq!(written(&case_a(), &[0; LENGTH], 0), (Ok(LENGTH), AS_SENT.to_vec()));
    let (said, buffer) = written(&case_a(), &[b'#'; 80], 3);
    assert_eq!(said, Ok(76));
    assert_eq!(buffer, [b"###", AS_SENT, b"####"].concat());
}

#[test]
fn lines_added_up_by_hand() {
    // A check of 00; the longest period, 0F4240; the largest head; every digit; both flags.
    let zero = Task::of_four(0, 126, 2, 126);
    let text = b"01100001EE\x0A02000000007E000000020000007E00\x0A";
    assert_eq!(written(&one(zero), &[0; 42], 0), (Ok(42), text.to_vec()));
    let long = Task::of_four(1, 1_000_000, 1_000_000, 1_000_000);
    let text = b"01100001EE\x0A0201000F4240000F4240000F42404A\x0A";
    assert_eq!(written(&one(long), &[0; 42], 0), (Ok(42), text.to_vec()));
    let digits = Task::of_four(1, 0x0E_DCBA, 0x01_2345, 0x06_789F);
    let text = b"01100001EE\x0A0201000EDCBA000123450006789FD3\x0A";
    assert_eq!(written(&one(digits), &[0; 42], 0), (Ok(42), text.to_vec()));
    let least = Table::in_places(1, 1, &[Task::of_four(0, 1, 1, 1)]);
    let text = b"01010101FC\x0A0200000000010000000100000001FB\x0A";
    assert_eq!(written(&least, &[0; 42], 0), (Ok(42), text.to_vec()));
    let most = Table::in_places(16, 1, &[LEGAL; 32]);
    let (said, buffer) = written(&most, &[0; LONGEST_PLAN], 0);
    assert_eq!((said, &buffer[..11]), (Ok(1_003), &b"01100120CE\x0A"[..]));
    assert!(buffer[11..].chunks(31).all(|line| line == b"02010000000C000000040000000CE1\x0A"));
}

// ------------------------------------------------------------ refusals

/// The faults are put right one by one, in the order in which they are met; each other one comes later.
#[test]
fn refusals_in_their_order() {
    let bad = Task::of_four(2, 0, 0, 0);
    let list = |tasks: &[Task]| [tasks, &[bad; 31]].concat();
    let flag = Task { flag: 0, ..bad };
    let period = Task { period: 9, ..flag };
    let deadline = Task { deadline: 9, ..period };
    let right = Task { cost: 9, ..deadline };
    for (cores, policy, tasks, number, place) in [
        (0, 2, vec![], 5, 0),
        (17, 2, vec![bad; 33], 5, 0),
        (u32::MAX, 2, vec![bad; 33], 5, 0),
        (256 + 1, 0, vec![LEGAL], 5, 0),
        (16, 2, vec![], 6, 0),
        (1, u32::MAX, vec![bad; 33], 6, 0),
        (1, 256, vec![LEGAL], 6, 0),
        (1, 1, vec![], 7, 0),
        (1, 0, vec![bad; 33], 7, 0),
        (1, 0, vec![LEGAL; 256 + 1], 7, 0),
        (1, 0, list(&[bad]), 8, 1),
        (1, 0, list(&[flag]), 9, 1),
        (1, 0, list(&[period]), 10, 1),
        (1, 0, list(&[deadline]), 11, 1),
        (1, 0, list(&[right]), 8, 2),
        (1, 0, [vec![LEGAL; 31], vec![bad]].concat(), 8, 32),
        (1, 0, vec![LEGAL; 32], 16, 0),
    ] {
        for (size, start) in [(0, 0), (5, 6), (100, usize::MAX), (41, 0)] {
            let buffer = vec![b'#'; size];
            let table = Table::in_places(cores, policy, &tasks);
            assert_eq!(written(&table, &buffer, start), (refuse(number, place), buffer));
        }
    }
}

/// The last numbers inside each range are written, the first ones outside refused, with all the room.
#[test]
fn ranges_at_their_borders() {
    let task = Task::of_four(1, 20, 10, 15);
    for (task, number) in [
        (Task { flag: 2, ..task }, 8),
        (Task { flag: 256, ..task }, 8),
        (Task { period: 0, ..task }, 9),
        (Task { period: 1_000_001, ..task }, 9),
        (Task { deadline: 0, ..task }, 10),
        (Task { deadline: 21, ..task }, 10),
        (Task { cost: 0, ..task }, 11),
        (Task { cost: 16, ..task }, 11),
    ] {
        let table = Table::in_places(2, 0, &[LEGAL, LEGAL, task]);
        assert_eq!(written(&table, &[7; 200], 1), (refuse(number, 3), vec![7; 200]));
    }
    for task in [
        Task { flag: 0, ..task },
        Task { period: 15, ..task },
        Task { period: 1_000_000, ..task },
        Task { deadline: 10, ..task },
        Task { deadline: 20, ..task },
        Task { cost: 1, ..task },
        Task { cost: 15, ..task },
    ] {
        let table = Table::in_places(2, 0, &[LEGAL, LEGAL, task]);
        assert_eq!(written(&table, &[7; 200], 1).0, Ok(1 + 11 + 3 * 31));
    }
}

#[test]
fn sixteen_at_and_beside_its_limits() {
    for size in [0, 1, LENGTH - 1, LENGTH, LENGTH + 1, 2 * LENGTH, 200] {
        let buffer = vec![b'#'; size];
        let mut starts = vec![0, 1, 2, size, size + 1, usize::MAX / 2, usize::MAX / 2 + 1];
        for last in [size.saturating_sub(LENGTH), size] {
            starts.extend([last.saturating_sub(1), last, last + 1]);
        }
        // Starts whose end would pass the largest number and come round to the buffer again.
        starts.extend((0..=2 * LENGTH).map(|less| usize::MAX - less));
        for start in starts {
            assert_eq!(written(&case_a(), &buffer, start), expected(AS_SENT, &buffer, start));
            assert_eq!(changed(AS_SENT, &buffer, start), expected(AS_CHANGED, &buffer, start));
        }
    }
}

#[test]
fn every_start_in_every_small_buffer() {
    for size in 0..=LENGTH + 12 {
        let buffer: Vec<u8> = (0..size).map(|at| at as u8).collect();
        for start in 0..=size + 12 {
            let said = written(&case_a(), &buffer, start);
            assert_eq!(said, expected(AS_SENT, &buffer, start));
            assert_eq!(said.0.is_ok(), start + LENGTH <= size);
        }
    }
}

// ------------------------------------------------------------ random tables

#[test]
fn what_is_written_is_read_and_is_what_plan_writes() {
    let mut random = Random::new(31);
    for table in random_tables(30) {
        let text = write(&table);
        let (before, after) = (random.small(0, 40) as usize, random.small(0, 40) as usize);
        let buffer = noise(&mut random, before + text.len() + after);
        let (said, now) = written(&table, &buffer, before);
        let end = said.unwrap();
        assert_eq!(end, before + 11 + 31 * table.tasks.len());
        assert_eq!(&now[..before], &buffer[..before]);
        assert_eq!(&now[end..], &buffer[end..]);
        assert_eq!(&now[before..end], text);
        assert_eq!(taken_apart(&now[before..end]), table);
        assert_eq!(read(&now[before..end]), Ok(table.clone()));
        // One byte less at the end, or one place later: too little room.
        let (short, exact) = (&buffer[..end - 1], &buffer[..end]);
        assert_eq!(written(&table, short, before), (refuse(16, 0), short.to_vec()));
        assert_eq!(written(&table, exact, before + 1), (refuse(16, 0), exact.to_vec()));
        assert_eq!(written(&table, exact, before).0, Ok(end));
    }
}

#[test]
fn what_is_read_is_written() {
    let mut random = Random::new(32);
    let (mut read_ones, mut lower_ones) = (0, 0);
    for table in random_tables(33) {
        let text = damaged(&mut random, &table);
        if let Ok(table) = read(&text) {
            assert_eq!(written(&table, &vec![9; text.len()], 0), (Ok(text.len()), raised(&text)));
            read_ones += 1;
            lower_ones += u32::from(raised(&text) != text);
        }
    }
    assert!(read_ones >= 100 && lower_ones >= 50);
}

/// Lists with numbers on or beside a border: refused as a list with enough records is, or written.
#[test]
fn lists_are_refused_as_for_the_test() {
    let mut random = Random::new(34);
    let mut refused = 0;
    for table in random_tables(35) {
        let mut table = table;
        for _ in 0..random.small(1, 3) {
            table = off_border(&mut random, &table);
        }
        let buffer = noise(&mut random, LONGEST_PLAN);
        let start = random.pick(&[0, 0, 1, 600, LONGEST_PLAN, usize::MAX]);
        let said = written(&table, &buffer, start);
        match check_list(table.cores, table.policy, &table.tasks, usize::MAX) {
            Ok(table) => assert_eq!(said, expected(&write(&table), &buffer, start)),
            Err(refusal) => {
                assert_eq!(said, (Err(refusal), buffer));
                refused += 1;
            }
        }
    }
    assert!(refused >= 100);
}
