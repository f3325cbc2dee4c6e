//! What the tests of writing share: document 01's plan, buffers, tables, and a reader of their own.

use second::hand::many;
use second::plan::{refuse, Refusal, Table, Task, LONGEST_PERIOD};
use second::random::Random;
use second::tables::{next_edge_pair, small_table};
use second::textbook;
use second::writing::write_changed;

/// Document 01's plan, and the same with both tasks made non-preemptive (case b).
pub const AS_SENT: &[u8] =
    b"01010102FB\x0A02010000000C000000040000000CE1\x0A0201000000180000000900000012CA\x0A";
pub const AS_CHANGED: &[u8] =
    b"01010102FB\x0A02000000000C000000040000000CE2\x0A0200000000180000000900000012CB\x0A";

/// 11 + 2 * 31.
pub const LENGTH: usize = 73;

pub type Said = (Result<usize, Refusal>, Vec<u8>);

/// What is said of a plan to be changed, and the buffer afterwards.
pub fn changed(text: &[u8], buffer: &[u8], start: usize) -> Said {
    let mut buffer = buffer.to_vec();
    (write_changed(text, &mut buffer, start, textbook::bound_of), buffer)
}

/// The buffer with this text in it, or 16 and the buffer as it was; the sums in whole numbers that hold
/// any start.
pub fn expected(text: &[u8], buffer: &[u8], start: usize) -> Said {
    if start as u128 + text.len() as u128 > buffer.len() as u128 {
        return (refuse(16, 0), buffer.to_vec());
    }
    let end = start + text.len();
    (Ok(end), [&buffer[..start], text, &buffer[end..]].concat())
}

/// Bytes of every kind, digits and 0A among them.
pub fn noise(random: &mut Random, size: usize) -> Vec<u8> {
    (0..size).map(|_| random.word() as u8).collect()
}

/// Of any size, with short and long periods, and some at the edge of acceptance.
pub fn random_tables(seed: u64) -> Vec<Table> {
    let mut random = Random::new(seed);
    let mut tables: Vec<Table> = (1..=32).map(many).collect();
    for longest in [5, 300, 70_000, LONGEST_PERIOD] {
        tables.extend((0..150).map(|_| small_table(&mut random, 32, 16, longest)));
    }
    for round in 0..40 {
        let (inside, outside) = next_edge_pair(&mut random, round % 2, 12, 1_000);
        tables.extend([inside, outside]);
    }
    tables
}

/// The table that lines hold, found without `plan::read`; every frame must sum to 0 modulo 256.
pub fn taken_apart(text: &[u8]) -> Table {
    let text = std::str::from_utf8(text).unwrap();
    assert!(text.ends_with('\n'));
    let part =
        |line: &str, at: usize, size: usize| u32::from_str_radix(&line[2 * at..2 * (at + size)], 16).unwrap();
    let lines: Vec<&str> = text.lines().collect();
    for line in &lines {
        assert!(line.bytes().all(|byte| b"0123456789ABCDEF".contains(&byte)));
        let sum: u32 = (0..line.len() / 2).map(|at| part(line, at, 1)).sum();
        assert_eq!(sum % 256, 0);
    }
    let head = lines[0];
    assert_eq!((head.len(), part(head, 0, 1), part(head, 3, 1) as usize), (10, 1, lines.len() - 1));
    let mut tasks = Vec::new();
    for line in &lines[1..] {
        assert_eq!((line.len(), part(line, 0, 1)), (30, 2));
        let (period, cost, deadline) = (part(line, 2, 4), part(line, 6, 4), part(line, 10, 4));
        tasks.push(Task::of_four(part(line, 1, 1), period, cost, deadline));
    }
    Table::in_places(part(head, 1, 1), part(head, 2, 1), &tasks)
}
