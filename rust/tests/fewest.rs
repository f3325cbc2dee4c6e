//! The fewest cores: the archive against the second program, which tries 1 to 16 in turn, by the flat calls
//! and by the safe functions.

use eskihrum::{flat, Fewest, Place, Policy, Record, Refusal, Task};
use second::fewest_compare::{everything, short, Said, Searcher};

const GUARD: u32 = 0xC3C3_C3C3;

// ---------------------------------------------------------------- the flat calls

struct Flat;

/// The place of the flags word in an answer.
const WORD: usize = 8;

/// An answer with guards behind it, whatever stood in it before.
const LENT: [u32; flat::FIELDS + 2] = [GUARD; flat::FIELDS + 2];

/// As many records as the answer says were written, and no other; what no field is for has to be 0.
fn told(yes: u32, answer: &[u32], before: &[u32], after: &[u32]) -> Said {
    let changed = before.iter().zip(after).rposition(|(old, new)| old != new).map_or(0, |at| at / 3 + 1);
    assert_eq!(answer[flat::RECORDS] as usize, changed, "the number of records");
    assert_eq!((yes, yes), (answer[flat::YES], u32::from(answer[flat::NUMBER] == 0)), "the yes");
    assert_eq!((answer[6], &answer[WORD + 1..16]), (0, &[0; 7][..]), "what no field is for");
    assert_eq!(answer[flat::FIELDS..], [GUARD; 2], "what stands behind the answer");
    Said {
        number: answer[flat::NUMBER],
        place: answer[flat::PLACE],
        cores: answer[flat::CORES],
        forced: answer[flat::FORCED],
        passes: answer[flat::PASSES],
        word: answer[WORD],
    }
}

impl Searcher for Flat {
    fn text(&self, text: &[u8], records: &mut [u32]) -> Said {
        let (before, mut answer) = (records.to_vec(), LENT);
        let yes = flat::fewest_plan(text, records, &mut answer);
        told(yes, &answer, &before, records)
    }

    fn list(&self, [cores, policy]: [u32; 2], tasks: &[u32], records: &mut [u32]) -> Said {
        let (before, mut answer) = (records.to_vec(), LENT);
        let yes = flat::fewest_tasks(cores, policy, tasks, records, &mut answer);
        told(yes, &answer, &before, records)
    }
}

// ---------------------------------------------------------------- the safe functions

struct Safe;

/// Lends the numbers as records, with guards behind them that no call may touch.
fn as_records(numbers: &mut [u32], run: impl FnOnce(&mut [Record]) -> Said) -> Said {
    const GUARDS: Record = Record { flag: GUARD, forced: GUARD, bound: GUARD };
    let room = numbers.len() / 3;
    let record = |three: &[u32]| Record { flag: three[0], forced: three[1], bound: three[2] };
    let mut records: Vec<Record> = numbers.chunks(3).map(record).collect();
    records.resize(room + 40, GUARDS);
    let said = run(&mut records[..room]);
    assert!(records[room..].iter().all(|record| *record == GUARDS), "written past the caller's list");
    for (three, record) in numbers.chunks_mut(3).zip(&records) {
        three.copy_from_slice(&[record.flag, record.forced, record.bound]);
    }
    said
}

fn said(answer: Result<Fewest, Refusal>, n: usize) -> Said {
    match answer {
        Ok(Fewest { cores, forced }) => {
            assert_eq!(forced.records.len(), n, "a record for each task");
            Said { cores, forced: forced.count, passes: forced.passes, word: forced.word, ..Said::default() }
        }
        Err(Refusal { number, place, passes, .. }) => {
            let place = match place {
                Place::Nowhere => 0,
                Place::Line(place) | Place::Task(place) => place,
            };
            Said { number, place, passes, ..Said::default() }
        }
    }
}

impl Searcher for Safe {
    fn text(&self, text: &[u8], records: &mut [u32]) -> Said {
        let n = second::plan::read(text).map_or(0, |table| table.tasks.len());
        as_records(records, |room| said(eskihrum::fewest_plan(text, room), n))
    }

    /// A policy that is not there cannot be asked for: those calls go to the flat functions.
    fn list(&self, [cores, policy]: [u32; 2], tasks: &[u32], records: &mut [u32]) -> Said {
        let named = match policy {
            0 => Policy::Edf,
            1 => Policy::Fp,
            _ => return Flat.list([cores, policy], tasks, records),
        };
        let task = |four: &[u32]| Task { flag: four[0], ..Task::preemptive(four[1], four[2], four[3]) };
        let mut tasks: Vec<Task> = tasks.chunks(4).map(task).collect();
        Task::set_places(&mut tasks);
        as_records(records, |room| said(eskihrum::fewest_tasks(cores, named, &tasks, room), tasks.len()))
    }
}

// ---------------------------------------------------------------- the runs

#[test]
fn flat_searches_agree() {
    println!("flat: {} searches agree, seed 311", short(&Flat, 311).expect("flat, seed 311"));
}

#[test]
fn safe_searches_agree() {
    println!("safe: {} searches agree, seed 312", short(&Safe, 312).expect("safe, seed 312"));
}

/// The long run, with a seed from the environment: SEED=7 cargo test --release -- --ignored --nocapture
#[test]
#[ignore]
fn searches_agree_at_length() {
    let seed = std::env::var("SEED").ok().and_then(|word| word.parse().ok()).unwrap_or(404);
    println!("flat: {} searches agree", everything(&Flat, seed).expect("flat"));
    println!("safe: {} searches agree", everything(&Safe, seed).expect("safe"));
}
