//! The fewest cores: the header's functions against the second program.

use eskihrum_header::{fewest_plan, fewest_tasks, Record, Task, Told};
use second::fewest_compare::{short, Said, Searcher};

struct Header;

/// Lends the numbers as records, with guards behind them that no call may touch, and counts what was written.
fn as_records(numbers: &mut [u32], run: impl FnOnce(&mut [Record]) -> (Told, u32)) -> Said {
    const GUARD: Record = [0xC3C3_C3C3, 0x3C3C_3C3C, 0x5555_5555];
    let room = numbers.len() / 3;
    let mut records: Vec<Record> = numbers.chunks(3).map(|three| [three[0], three[1], three[2]]).collect();
    records.resize(room + 40, GUARD);
    let (told, cores) = run(&mut records[..room]);
    assert!(records[room..].iter().all(|record| *record == GUARD), "written past the caller's list");
    let changed =
        numbers.chunks(3).zip(&records).rposition(|(old, new)| old != new).map_or(0, |last| last + 1);
    assert_eq!(told.records as usize, changed, "the number of records");
    assert_eq!(told.yes, u32::from(told.number == 0), "yes, or refused");
    for (three, record) in numbers.chunks_mut(3).zip(&records) {
        three.copy_from_slice(record);
    }
    Said {
        number: told.number,
        place: told.place,
        cores,
        forced: told.forced,
        passes: told.passes,
        word: told.word,
    }
}

impl Searcher for Header {
    fn text(&self, text: &[u8], records: &mut [u32]) -> Said {
        as_records(records, |room| fewest_plan(text, room))
    }

    fn list(&self, [cores, policy]: [u32; 2], tasks: &[u32], records: &mut [u32]) -> Said {
        let tasks: Vec<Task> = tasks.chunks(4).map(|four| [four[0], four[1], four[2], four[3]]).collect();
        as_records(records, |room| fewest_tasks(cores, policy, &tasks, room))
    }
}

#[test]
fn header_searches_agree() {
    println!("header: {} searches agree, seed 313", short(&Header, 313).expect("header, seed 313"));
}
