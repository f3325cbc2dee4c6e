//! The header's functions and macros against the second program.

use eskihrum_header::{older_plan, older_tasks, plan, plan_2, tasks, tasks_2, write_changed, write_tasks};
use eskihrum_header::{Record, Task, Told};
use second::compare::{short, Compared, Planner, Told as Returned, FORCE};
use second::compare_writing::{compared, Said, Writer};
use second::edition2_compare as editions;

/// The second program's one number for an answer: number, place, forced and passes a byte each, then yes.
/// And the flags in one word.
fn word(told: Told) -> Returned {
    let number = u64::from(told.number)
        + (u64::from(told.place) << 8)
        + (u64::from(told.forced) << 16)
        + (u64::from(told.passes) << 24)
        + (u64::from(told.yes) << 32);
    (number, told.word)
}

/// Lends the numbers as records, with guards behind them that no call may touch, and counts what was written.
fn as_records(numbers: &mut [u32], run: impl FnOnce(&mut [Record]) -> Told) -> Returned {
    const GUARD: Record = [0xC3C3_C3C3, 0x3C3C_3C3C, 0x5555_5555];
    let room = numbers.len() / 3;
    let mut records: Vec<Record> = numbers.chunks(3).map(|three| [three[0], three[1], three[2]]).collect();
    records.resize(room + 40, GUARD);
    let told = run(&mut records[..room]);
    assert!(records[room..].iter().all(|record| *record == GUARD), "written past the caller's list");
    let changed =
        numbers.chunks(3).zip(&records).rposition(|(old, new)| old != new).map_or(0, |last| last + 1);
    assert_eq!(told.records as usize, changed, "the number of records");
    for (three, record) in numbers.chunks_mut(3).zip(&records) {
        three.copy_from_slice(record);
    }
    word(told)
}

fn wrapped_text(job: u32, text: &[u8], records: &mut [u32]) -> Returned {
    as_records(records, |room| plan(job == FORCE, text, room))
}

fn listed(numbers: &[u32]) -> Vec<Task> {
    numbers.chunks(4).map(|four| [four[0], four[1], four[2], four[3]]).collect()
}

fn wrapped_list(job: u32, cores: u32, policy: u32, numbers: &[u32], records: &mut [u32]) -> Returned {
    as_records(records, |room| tasks(job == FORCE, cores, policy, &listed(numbers), room))
}

/// The end place, or the refusal; no other field says anything.
fn said((told, end): (Told, usize)) -> Said {
    let Told { records, passes, forced, yes, place, number, word } = told;
    assert_eq!((records, forced, yes, word), (0, 0, u32::from(number == 0), 0), "what a writer says");
    if number == 0 {
        assert_eq!((place, passes), (0, 0), "an end without a refusal");
        return Ok(end);
    }
    assert_eq!(end, 0, "a refusal without an end");
    Err((number, place, passes))
}

fn wrapped_write(cores: u32, policy: u32, numbers: &[u32], buffer: &mut [u8], start: usize) -> Said {
    said(write_tasks(cores, policy, &listed(numbers), buffer, start))
}

fn wrapped_change(text: &[u8], buffer: &mut [u8], start: usize) -> Said {
    said(write_changed(text, buffer, start))
}

fn older_text(job: u32, text: &[u8], records: &mut [u32]) -> Returned {
    word(older_plan(job == FORCE, text, records))
}

fn older_list(job: u32, cores: u32, policy: u32, numbers: &[u32], records: &mut [u32]) -> Returned {
    word(older_tasks(job == FORCE, cores, policy, numbers, records))
}

fn told(way: &str, seed: u64, compared: Compared) {
    match compared {
        Ok(calls) => println!("{way}: {calls} calls agree, seed {seed}"),
        Err(difference) => panic!("{way}, seed {seed}: {difference}"),
    }
}

/// Either edition, by the header's functions.
struct Header;

fn in_edition(numbers: &mut [u32], run: impl FnOnce(&mut [Record]) -> (Told, u32)) -> editions::Said {
    let mut kept = (Told::default(), 0);
    as_records(numbers, |room| {
        kept = run(room);
        kept.0
    });
    let (Told { passes, forced, yes, place, number, word, .. }, rounds) = kept;
    editions::Said { number, place, yes: yes == 1, forced, passes, rounds, word }
}

impl editions::Planner for Header {
    fn text(&self, job: u32, edition: u32, text: &[u8], records: &mut [u32]) -> editions::Said {
        in_edition(records, |room| match edition {
            1 => (plan(job == FORCE, text, room), 0),
            _ => plan_2(job == FORCE, text, room),
        })
    }

    fn list(
        &self,
        job: u32,
        edition: u32,
        head: [u32; 2],
        numbers: &[u32],
        records: &mut [u32],
    ) -> editions::Said {
        in_edition(records, |room| match edition {
            1 => (tasks(job == FORCE, head[0], head[1], &listed(numbers), room), 0),
            _ => tasks_2(job == FORCE, head, &listed(numbers), room),
        })
    }
}

#[test]
fn header_agrees_under_both_editions() {
    told("header, both editions", 312, editions::short(&Header, 312));
}

#[test]
fn header_functions_agree() {
    told("header", 306, short(&Planner { text: wrapped_text, list: wrapped_list, tells_word: true }, 306));
}

#[test]
fn header_macros_agree() {
    told(
        "header's macros",
        307,
        short(&Planner { text: older_text, list: older_list, tells_word: false }, 307),
    );
}

#[test]
fn header_writers_agree() {
    let writer = Writer { tasks: wrapped_write, changed: wrapped_change };
    told("header's writers", 310, compared(&writer, 310, 4_000));
}
