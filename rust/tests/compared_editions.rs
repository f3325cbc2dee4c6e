//! The archive against the second program under both editions, by the flat calls and by the safe functions:
//! tables that need many rounds, with differences above 0, with 15, which the first edition accepts and
//! refuses; every value, and every record of the caller's list.

use eskihrum::{flat, Edition, Forced, Place, Policy, Record, Refusal, Rounded, Task, Tested};
use second::compare::{Compared, TEST};
use second::edition2_compare::{everything, short, Planner, Said};
use second::word::word_of_flags;

/// The number of calls that agree is printed; a table on which the two differ is kept in
/// target/difference.txt.
fn told(way: &str, seed: u64, compared: Compared) {
    match compared {
        Ok(calls) => println!("{way}, both editions: {calls} calls agree, seed {seed}"),
        Err(difference) => {
            let kept = concat!(env!("CARGO_MANIFEST_DIR"), "/../target/difference.txt");
            let _ = std::fs::write(kept, &difference);
            panic!("{way}, seed {seed}: {difference}");
        }
    }
}

// ---------------------------------------------------------------- the flat calls

struct Flat;

/// The place of the flags word in an answer.
const WORD: usize = 8;

/// An answer with a guard behind it. What is kept for later has to be 0, whatever stood there; as many
/// records are written as the answer says.
fn lent(records: &mut [u32], run: impl FnOnce(&mut [u32], &mut [u32]) -> u32) -> Said {
    const GUARD: u32 = 0xC3C3_C3C3;
    let before = records.to_vec();
    let mut answer = [GUARD; flat::FIELDS + 2];
    let yes = run(records, &mut answer);
    assert_eq!(answer[flat::CORES], 0, "what is not for this call");
    assert_eq!(answer[WORD + 1..], [0, 0, 0, 0, 0, 0, 0, GUARD, GUARD], "what no field is for");
    assert_eq!(yes, answer[flat::YES], "the result is the answer's yes");
    let changed = before.iter().zip(records.iter()).rposition(|(old, new)| old != new);
    let written = changed.map_or(0, |last| last / 3 + 1);
    assert_eq!(answer[flat::RECORDS] as usize, written, "the number of records");
    Said {
        number: answer[flat::NUMBER],
        place: answer[flat::PLACE],
        yes: yes == 1,
        forced: answer[flat::FORCED],
        passes: answer[flat::PASSES],
        rounds: answer[flat::ROUNDS],
        word: answer[WORD],
    }
}

impl Planner for Flat {
    fn text(&self, job: u32, edition: u32, text: &[u8], records: &mut [u32]) -> Said {
        let run = match (job, edition) {
            (TEST, 1) => flat::test_plan,
            (TEST, _) => flat::test_plan_2,
            (_, 1) => flat::force_plan,
            _ => flat::force_plan_2,
        };
        lent(records, |records, answer| run(text, records, answer))
    }

    fn list(&self, job: u32, edition: u32, head: [u32; 2], tasks: &[u32], records: &mut [u32]) -> Said {
        let run = match (job, edition) {
            (TEST, 1) => flat::test_tasks,
            (TEST, _) => flat::test_tasks_2,
            (_, 1) => flat::force_tasks,
            _ => flat::force_tasks_2,
        };
        lent(records, |records, answer| run(head[0], head[1], tasks, records, answer))
    }
}

// ---------------------------------------------------------------- the safe functions

struct Safe;

/// Lends the numbers as records.
fn as_records(numbers: &mut [u32], run: impl FnOnce(&mut [Record]) -> Said) -> Said {
    let record = |three: &[u32]| Record { flag: three[0], forced: three[1], bound: three[2] };
    let mut records: Vec<Record> = numbers.chunks(3).map(record).collect();
    let said = run(&mut records);
    for (three, record) in numbers.chunks_mut(3).zip(&records) {
        three.copy_from_slice(&[record.flag, record.forced, record.bound]);
    }
    said
}

fn refused(refusal: Refusal) -> Said {
    let place = match refusal.place {
        Place::Nowhere => 0,
        Place::Line(place) | Place::Task(place) => place,
    };
    Said { number: refusal.number, place, passes: refusal.passes, ..Said::default() }
}

fn tested(answer: Result<Rounded<Tested>, Refusal>) -> Said {
    match answer {
        Ok(answer) => Said { yes: answer.told.yes, rounds: answer.rounds, ..Said::default() },
        Err(refusal) => refused(refusal),
    }
}

fn forced(answer: Result<Rounded<Forced>, Refusal>) -> Said {
    match answer {
        Ok(Rounded { told: Forced { count, passes, word, records }, rounds }) => {
            let flags: Vec<u32> = records.iter().map(|one| one.flag).collect();
            assert_eq!(word, word_of_flags(&flags), "the flags in one word");
            Said { yes: true, forced: count, passes, rounds, ..Said::default() }
        }
        Err(refusal) => refused(refusal),
    }
}

fn edition_of(edition: u32) -> Edition {
    if edition == 1 {
        Edition::First
    } else {
        Edition::Second
    }
}

impl Planner for Safe {
    fn tells_word(&self) -> bool {
        false
    }

    fn text(&self, job: u32, edition: u32, text: &[u8], records: &mut [u32]) -> Said {
        let edition = edition_of(edition);
        as_records(records, |room| match job {
            TEST => tested(eskihrum::test_plan_in(edition, text, room)),
            _ => forced(eskihrum::force_plan_in(edition, text, room)),
        })
    }

    /// A policy that is not there cannot be asked for: those calls go to the flat functions.
    fn list(&self, job: u32, edition: u32, head: [u32; 2], tasks: &[u32], records: &mut [u32]) -> Said {
        let policy = match head[1] {
            0 => Policy::Edf,
            1 => Policy::Fp,
            _ => return Flat.list(job, edition, head, tasks, records),
        };
        let task = |four: &[u32]| Task { flag: four[0], ..Task::preemptive(four[1], four[2], four[3]) };
        let (edition, mut tasks) = (edition_of(edition), tasks.chunks(4).map(task).collect::<Vec<Task>>());
        Task::set_places(&mut tasks);
        as_records(records, |room| match job {
            TEST => tested(eskihrum::test_tasks_in(edition, head[0], policy, &tasks, room)),
            _ => forced(eskihrum::force_tasks_in(edition, head[0], policy, &tasks, room)),
        })
    }
}

// ---------------------------------------------------------------- the runs

/// A short run of each way in, with fixed seeds, in the gate.
#[test]
fn flat_calls_agree_under_both_editions() {
    told("flat calls", 310, short(&Flat, 310));
}

#[test]
fn safe_functions_agree_under_both_editions() {
    told("safe functions", 311, short(&Safe, 311));
}

/// The long run, with a seed from the environment: SEED=7 cargo test --release -- --ignored --nocapture
#[test]
#[ignore]
fn editions_agree_at_length() {
    let seed = std::env::var("SEED").ok().and_then(|word| word.parse().ok()).unwrap_or(404);
    told("flat calls", seed, everything(&Flat, seed));
    told("safe functions", seed, everything(&Safe, seed));
}
