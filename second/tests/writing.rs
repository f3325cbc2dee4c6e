//! Writing a plan into a buffer, by hand.

use second::hand::{case_a, case_d, many};
use second::plan::{in_places, read, write, Refusal, Task};
use second::textbook;
use second::writing::{write_at, write_changed};
use second::writing_cases::letters;

const TEXT: &str = "01010102FB\n02010000000C000000040000000CE1\n0201000000180000000900000012CA\n";

fn at(start: usize, room: usize) -> (Result<usize, Refusal>, Vec<u8>) {
    let (table, mut buffer) = (case_a(), letters(room));
    (write_at(table.cores, table.policy, &table.tasks, &mut buffer, start), buffer)
}

fn refused(number: u32, place: u32, passes: u32) -> Result<usize, Refusal> {
    Err(Refusal { number, place, passes })
}

#[test]
fn the_documents_plan_in_the_middle() {
    let (said, buffer) = at(2, 80);
    assert_eq!(said, Ok(75));
    assert_eq!(&buffer[2..75], TEXT.as_bytes());
    assert_eq!(&buffer[..2], &letters(80)[..2]);
    assert_eq!(&buffer[75..], &letters(80)[75..]);
}

#[test]
fn sixteen_at_its_borders() {
    for (start, room) in
        [(2, 74), (0, 72), (0, 0), (80, 80), (81, 80), (usize::MAX, 80), (usize::MAX - 72, 80)]
    {
        assert_eq!(at(start, room), (refused(16, 0, 0), letters(room)));
    }
    for (start, room) in [(2, 75), (0, 73), (7, 80)] {
        assert_eq!(at(start, room).0, Ok(start + 73));
    }
}

#[test]
fn five_to_eleven_come_first() {
    let task = Task::of_four(1, 12, 4, 12);
    for (cores, policy, tasks, said) in [
        (0, 2, vec![], refused(5, 0, 0)),
        (1, 2, vec![], refused(6, 0, 0)),
        (1, 1, vec![], refused(7, 0, 0)),
        (1, 1, vec![task; 33], refused(7, 0, 0)),
        (1, 1, vec![task, Task { flag: 2, ..task }], refused(8, 2, 0)),
        (1, 1, vec![task, Task { period: u32::MAX, ..task }], refused(9, 2, 0)),
        (1, 1, vec![Task { deadline: 13, ..task }, task], refused(10, 1, 0)),
        (1, 1, vec![Task { cost: 0, ..task }, task], refused(11, 1, 0)),
    ] {
        let mut buffer = letters(10);
        assert_eq!(write_at(cores, policy, &in_places(&tasks), &mut buffer, 99), said);
        assert_eq!(buffer, letters(10));
    }
}

#[test]
fn what_is_written_is_read() {
    for n in 1..=32 {
        let (table, mut buffer) = (many(n), letters(1_010));
        let end = write_at(table.cores, table.policy, &table.tasks, &mut buffer, 3).unwrap();
        assert_eq!(end, 3 + 11 + 31 * n);
        assert_eq!(&buffer[3..end], write(&table));
        assert_eq!(read(&buffer[3..end]), Ok(table));
    }
}

#[test]
fn the_table_as_changed() {
    let mut buffer = letters(80);
    assert_eq!(write_changed(TEXT.as_bytes(), &mut buffer, 3, textbook::bound_of), Ok(76));
    let changed = read(&buffer[3..76]).unwrap();
    assert_eq!(changed.flags(), [0, 0]);
    let again = buffer[3..76].to_vec();
    let mut second = letters(73);
    assert_eq!(write_changed(&again, &mut second, 0, textbook::bound_of), Ok(73));
    assert_eq!(second, again);
    // 14 with its place and passes before 16; the reading's refusal before both.
    let mut buffer = letters(8);
    let text = write(&case_d());
    assert_eq!(write_changed(&text, &mut buffer, 0, textbook::bound_of), refused(14, 1, 2));
    assert_eq!(write_changed(b"", &mut buffer, 0, textbook::bound_of), refused(1, 1, 0));
    assert_eq!(write_changed(TEXT.as_bytes(), &mut buffer, 0, textbook::bound_of), refused(16, 0, 0));
    assert_eq!(buffer, letters(8));
}
