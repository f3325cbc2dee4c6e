//! The archive against the second program, by every way in: the older calls, the flat calls with a lent
//! answer, and the safe functions. Hand sums, every small table, tables at the edge, damaged texts, lists
//! beside a border.

use eskihrum::{flat, Forced, Place, Policy, Record, Refusal, Task, Tested};
use second::compare::{everything, short, unflat, Compared, Planner, Told, TEST};
use second::compare_writing::{compared, Said, Writer};
use second::word::word_of_flags;

/// The number of calls that agree is printed; a table on which the two differ is kept in
/// target/difference.txt.
fn told(way: &str, seed: u64, compared: Compared) {
    match compared {
        Ok(calls) => println!("{way}: {calls} calls agree, seed {seed}"),
        Err(difference) => {
            let kept = concat!(env!("CARGO_MANIFEST_DIR"), "/../target/difference.txt");
            let _ = std::fs::write(kept, &difference);
            panic!("{way}, seed {seed}: {difference}");
        }
    }
}

/// The second program's one number for an answer: number, place, forced and passes a byte each, then yes.
fn word(number: u32, place: u32, yes: bool, forced: u32, passes: u32) -> u64 {
    u64::from(number)
        + (u64::from(place) << 8)
        + (u64::from(forced) << 16)
        + (u64::from(passes) << 24)
        + (u64::from(yes) << 32)
}

// ---------------------------------------------------------------- the flat calls

const FLAT: Planner = Planner { text: flat_text, list: flat_list, tells_word: true };

/// The place of the flags word in an answer.
const WORD: usize = 8;

/// An answer with a guard behind it: the number, the word, and the number of records. What is kept for later
/// has to be 0, whatever stood there.
fn lent(run: impl FnOnce(&mut [u32]) -> u32) -> (Told, u32) {
    const GUARD: u32 = 0xC3C3_C3C3;
    let mut answer = [GUARD; flat::FIELDS + 2];
    let yes = run(&mut answer);
    assert_eq!(answer[6..WORD], [0, 0], "what is not for this call");
    assert_eq!(answer[WORD + 1..], [0, 0, 0, 0, 0, 0, 0, GUARD, GUARD], "what no field is for");
    assert_eq!(yes, answer[flat::YES], "the result is the answer's yes");
    let told = word(
        answer[flat::NUMBER],
        answer[flat::PLACE],
        answer[flat::YES] == 1,
        answer[flat::FORCED],
        answer[flat::PASSES],
    );
    ((told, answer[WORD]), answer[flat::RECORDS])
}

/// As many records as the answer says were written, and no other; the second program knows how many.
fn counted((told, written): (Told, u32), before: &[u32], after: &[u32]) -> Told {
    let changed = before.iter().zip(after).rposition(|(old, new)| old != new).map_or(0, |last| last / 3 + 1);
    assert_eq!(written as usize, changed, "the number of records");
    told
}

fn flat_text(job: u32, text: &[u8], records: &mut [u32]) -> Told {
    let before = records.to_vec();
    let run = if job == TEST { flat::test_plan } else { flat::force_plan };
    counted(lent(|answer| run(text, records, answer)), &before, records)
}

fn flat_list(job: u32, cores: u32, policy: u32, tasks: &[u32], records: &mut [u32]) -> Told {
    let before = records.to_vec();
    let run = if job == TEST { flat::test_tasks } else { flat::force_tasks };
    counted(lent(|answer| run(cores, policy, tasks, records, answer)), &before, records)
}

// ---------------------------------------------------------------- the safe functions

/// A test by the safe functions tells no flags word; forcing's is compared where it is told.
const SAFE: Planner = Planner { text: safe_text, list: safe_list, tells_word: false };

/// Lends the numbers as records, with guards behind them that no call may touch.
fn as_records(numbers: &mut [u32], run: impl FnOnce(&mut [Record]) -> u64) -> Told {
    const GUARD: Record = Record { flag: 0xC3C3_C3C3, forced: 0x3C3C_3C3C, bound: 0x5555_5555 };
    let room = numbers.len() / 3;
    let record = |three: &[u32]| Record { flag: three[0], forced: three[1], bound: three[2] };
    let mut records: Vec<Record> = numbers.chunks(3).map(record).collect();
    records.resize(room + 40, GUARD);
    let told = run(&mut records[..room]);
    assert!(records[room..].iter().all(|record| *record == GUARD), "written past the caller's list");
    for (three, record) in numbers.chunks_mut(3).zip(&records) {
        three.copy_from_slice(&[record.flag, record.forced, record.bound]);
    }
    (told, 0)
}

fn refused(refusal: Refusal, by_line: bool) -> u64 {
    let place = match refusal.place {
        Place::Nowhere => 0,
        Place::Line(line) => {
            assert!(by_line && refusal.number <= 12, "{refusal} speaks of a line");
            line
        }
        Place::Task(task) => {
            assert!(!by_line || refusal.number == 14, "{refusal} speaks of a task");
            task
        }
    };
    word(refusal.number, place, false, 0, refusal.passes)
}

fn tested(answer: Result<Tested, Refusal>, by_line: bool, n: usize) -> u64 {
    match answer {
        Ok(tested) => {
            assert_eq!(tested.records.len(), n, "a record for each task");
            word(0, 0, tested.yes, 0, 0)
        }
        Err(refusal) => refused(refusal, by_line),
    }
}

fn forced(answer: Result<Forced, Refusal>, by_line: bool, n: usize) -> u64 {
    match answer {
        Ok(forced) => {
            assert_eq!(forced.records.len(), n, "a record for each task");
            let flags: Vec<u32> = forced.records.iter().map(|one| one.flag).collect();
            assert_eq!(forced.word, word_of_flags(&flags), "the flags in one word");
            word(0, 0, true, forced.count, forced.passes)
        }
        Err(refusal) => refused(refusal, by_line),
    }
}

fn safe_text(job: u32, text: &[u8], records: &mut [u32]) -> Told {
    let n = second::plan::read(text).map_or(0, |table| table.tasks.len());
    as_records(records, |room| match job {
        TEST => tested(eskihrum::test_plan(text, room), true, n),
        _ => forced(eskihrum::force_plan(text, room), true, n),
    })
}

/// A policy that is not there cannot be asked for: those calls go to the flat functions.
fn safe_list(job: u32, cores: u32, policy: u32, tasks: &[u32], records: &mut [u32]) -> Told {
    let policy = match policy {
        0 => Policy::Edf,
        1 => Policy::Fp,
        _ => return flat_list(job, cores, policy, tasks, records),
    };
    let task = |four: &[u32]| Task { flag: four[0], ..Task::preemptive(four[1], four[2], four[3]) };
    let mut tasks: Vec<Task> = tasks.chunks(4).map(task).collect();
    Task::set_places(&mut tasks);
    as_records(records, |room| match job {
        TEST => tested(eskihrum::test_tasks(cores, policy, &tasks, room), false, tasks.len()),
        _ => forced(eskihrum::force_tasks(cores, policy, &tasks, room), false, tasks.len()),
    })
}

// ---------------------------------------------------------------- the writers

const FLAT_WRITER: Writer = Writer { tasks: flat_write_tasks, changed: flat_write_changed };
const SAFE_WRITER: Writer = Writer { tasks: safe_write_tasks, changed: safe_write_changed };

/// The end place, or the refusal; all other numbers of the answer have to be 0, and those behind it kept.
fn written(run: impl FnOnce(&mut [u32]) -> u32) -> Said {
    const GUARD: u32 = 0xC3C3_C3C3;
    let mut answer = [GUARD; flat::FIELDS + 2];
    let yes = run(&mut answer);
    let [number, place, told, forced, passes, records, _, _, _, low, high, rest @ ..] = answer;
    assert_eq!((told, forced, records), (yes, 0, 0), "what a writer says");
    assert_eq!((&answer[6..9], rest), (&[0; 3][..], [0, 0, 0, 0, 0, GUARD, GUARD]), "what no field is for");
    if number == 0 {
        assert_eq!((yes, place, passes), (1, 0, 0), "an end without a refusal");
        return Ok(low as usize + ((high as usize) << 32));
    }
    assert_eq!((yes, low, high), (0, 0, 0), "a refusal without an end");
    Err((number, place, passes))
}

fn flat_write_tasks(cores: u32, policy: u32, tasks: &[u32], buffer: &mut [u8], start: usize) -> Said {
    written(|answer| flat::write_tasks(cores, policy, tasks, buffer, start, answer))
}

fn flat_write_changed(text: &[u8], buffer: &mut [u8], start: usize) -> Said {
    written(|answer| flat::write_changed(text, buffer, start, answer))
}

fn parts(refusal: Refusal) -> (u32, u32, u32) {
    let place = match refusal.place {
        Place::Nowhere => 0,
        Place::Line(place) | Place::Task(place) => place,
    };
    (refusal.number, place, refusal.passes)
}

fn safe_write_tasks(cores: u32, policy: u32, tasks: &[u32], buffer: &mut [u8], start: usize) -> Said {
    let policy = match policy {
        0 => Policy::Edf,
        1 => Policy::Fp,
        _ => return flat_write_tasks(cores, policy, tasks, buffer, start),
    };
    let task = |one: second::plan::Task| Task {
        flag: one.flag,
        ..Task::preemptive(one.period, one.cost, one.deadline)
    };
    let mut tasks: Vec<Task> = unflat(tasks).into_iter().map(task).collect();
    Task::set_places(&mut tasks);
    eskihrum::write_tasks(cores, policy, &tasks, buffer, start).map_err(parts)
}

fn safe_write_changed(text: &[u8], buffer: &mut [u8], start: usize) -> Said {
    eskihrum::write_changed(text, buffer, start).map_err(parts)
}

// ---------------------------------------------------------------- the runs

/// The older calls have no flags word, and never will.
const OLDER: Planner = Planner {
    text: |job, text, records| (flat::plan(job, text, records), 0),
    list: |job, cores, policy, tasks, records| (flat::tasks(job, cores, policy, tasks, records), 0),
    tells_word: false,
};

/// A short run of each way in, with fixed seeds, in the gate.
#[test]
fn older_calls_agree() {
    told("older calls", 303, short(&OLDER, 303));
}

#[test]
fn flat_calls_agree() {
    told("flat calls", 304, short(&FLAT, 304));
}

#[test]
fn safe_functions_agree() {
    told("safe functions", 305, short(&SAFE, 305));
}

#[test]
fn writers_agree() {
    told("flat writers", 308, compared(&FLAT_WRITER, 308, 4_000));
    told("safe writers", 309, compared(&SAFE_WRITER, 309, 4_000));
}

/// The long run, with a seed from the environment: SEED=7 cargo test --release -- --ignored --nocapture
#[test]
#[ignore]
fn agree_at_length() {
    let seed = std::env::var("SEED").ok().and_then(|word| word.parse().ok()).unwrap_or(404);
    for (way, planner) in [("older calls", OLDER), ("flat calls", FLAT), ("safe functions", SAFE)] {
        told(way, seed, everything(&planner, seed));
    }
    told("flat writers", seed, compared(&FLAT_WRITER, seed, 100_000));
    told("safe writers", seed, compared(&SAFE_WRITER, seed, 100_000));
}
