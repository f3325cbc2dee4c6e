//! Tables with levels: the calls on five numbers to a task, and the safe functions, against the second
//! program.

use eskihrum::{flat, Edition, Fewest, Forced, Place, Policy, Record, Refusal, Rounded, Task, Tested};
use second::compare_writing;
use second::levels_compare::{everything, short, Job, Leveled, Said};
use second::word::word_of_flags;

const GUARD: u32 = 0xC3C3_C3C3;

/// An answer with guards behind it, whatever stood in it before.
const LENT: [u32; flat::FIELDS + 2] = [GUARD; flat::FIELDS + 2];

struct Flat;

impl Leveled for Flat {
    /// As many records as the answer says were written, and no other; what no field is for has to be 0.
    fn call(&self, job: Job, [cores, policy]: [u32; 2], tasks: &[u32], records: &mut [u32]) -> Said {
        let call = match job {
            Job::Test => flat::test_levels,
            Job::Force => flat::force_levels,
            Job::Test2 => flat::test_levels_2,
            Job::Force2 => flat::force_levels_2,
            Job::Fewest => flat::fewest_levels,
        };
        let (before, mut answer) = (records.to_vec(), LENT);
        let yes = call(cores, policy, tasks, records, &mut answer);
        let changed = before.iter().zip(records.iter()).rposition(|(old, new)| old != new);
        let written = changed.map_or(0, |last| last / 3 + 1);
        assert_eq!(answer[flat::RECORDS] as usize, written, "the number of records");
        assert_eq!(yes, answer[flat::YES], "the result is the answer's yes");
        assert_eq!(answer[flat::WORD + 1..], [0, 0, 0, 0, 0, 0, 0, GUARD, GUARD], "what no field is for");
        Said {
            number: answer[flat::NUMBER],
            place: answer[flat::PLACE],
            yes: yes == 1,
            forced: answer[flat::FORCED],
            passes: answer[flat::PASSES],
            rounds: answer[flat::ROUNDS],
            cores: answer[flat::CORES],
            word: answer[flat::WORD],
        }
    }

    /// The end place, or the refusal; all other numbers of the answer have to be 0.
    fn write(&self, head: [u32; 2], tasks: &[u32], buffer: &mut [u8], start: usize) -> compare_writing::Said {
        let ([cores, policy], mut answer) = (head, LENT);
        let yes = flat::write_levels(cores, policy, tasks, buffer, start, &mut answer);
        let [number, place, told, forced, passes, records, _, _, _, low, high, rest @ ..] = answer;
        assert_eq!((told, forced, passes, records), (yes, 0, 0, 0), "what a writer says");
        assert_eq!(
            (&answer[6..9], rest),
            (&[0; 3][..], [0, 0, 0, 0, 0, GUARD, GUARD]),
            "what no field is for"
        );
        if number == 0 {
            assert_eq!((yes, place), (1, 0), "an end without a refusal");
            return Ok(low as usize + ((high as usize) << 32));
        }
        assert_eq!((yes, low, high), (0, 0, 0), "a refusal without an end");
        Err((number, place, passes))
    }
}

// ---------------------------------------------------------------- the safe functions

struct Safe;

/// The tasks and the policy, where the safe functions can be asked: whole tasks, and a policy that is there.
fn asked(policy: u32, numbers: &[u32]) -> Option<(Policy, Vec<Task>)> {
    let policy = [Policy::Edf, Policy::Fp].into_iter().nth(policy as usize)?;
    let task = |five: &[u32]| {
        let [flag, period, cost, deadline, level] = [five[0], five[1], five[2], five[3], five[4]];
        Task { flag, period, cost, deadline, level }
    };
    (numbers.len() % 5 == 0).then(|| (policy, numbers.chunks(5).map(task).collect()))
}

fn parts(refusal: Refusal) -> (u32, u32, u32) {
    match refusal.place {
        Place::Nowhere => (refusal.number, 0, refusal.passes),
        Place::Task(task) => (refusal.number, task, refusal.passes),
        Place::Line(_) => panic!("{refusal} speaks of a line"),
    }
}

fn refused(refusal: Refusal) -> Said {
    let (number, place, passes) = parts(refusal);
    Said { number, place, passes, ..Said::default() }
}

/// A test tells no word: that of its records stands in its place.
fn tested(answer: Result<Rounded<Tested>, Refusal>) -> Said {
    let word = |records: &[Record]| word_of_flags(&records.iter().map(|one| one.flag).collect::<Vec<u32>>());
    answer.map_or_else(refused, |Rounded { told: Tested { yes, records }, rounds }| Said {
        yes,
        rounds,
        word: word(records),
        ..Said::default()
    })
}

fn forced(answer: Result<Rounded<Forced>, Refusal>) -> Said {
    answer.map_or_else(refused, |Rounded { told: Forced { count, passes, word, .. }, rounds }| Said {
        yes: true,
        forced: count,
        passes,
        rounds,
        word,
        ..Said::default()
    })
}

fn fewest(answer: Result<Fewest, Refusal>) -> Said {
    answer.map_or_else(refused, |Fewest { cores, forced: told }| Said {
        cores,
        ..forced(Ok(Rounded { told, rounds: 0 }))
    })
}

impl Leveled for Safe {
    fn call(&self, job: Job, head: [u32; 2], numbers: &[u32], records: &mut [u32]) -> Said {
        let Some((policy, tasks)) = asked(head[1], numbers) else {
            return Flat.call(job, head, numbers, records);
        };
        let record = |three: &[u32]| Record { flag: three[0], forced: three[1], bound: three[2] };
        let mut room: Vec<Record> = records.chunks_exact(3).map(record).collect();
        let said = match job {
            Job::Test => tested(eskihrum::test_tasks_in(Edition::First, head[0], policy, &tasks, &mut room)),
            Job::Force => {
                forced(eskihrum::force_tasks_in(Edition::First, head[0], policy, &tasks, &mut room))
            }
            Job::Test2 => {
                tested(eskihrum::test_tasks_in(Edition::Second, head[0], policy, &tasks, &mut room))
            }
            Job::Force2 => {
                forced(eskihrum::force_tasks_in(Edition::Second, head[0], policy, &tasks, &mut room))
            }
            Job::Fewest => fewest(eskihrum::fewest_tasks(head[0], policy, &tasks, &mut room)),
        };
        for (three, record) in records.chunks_exact_mut(3).zip(&room) {
            three.copy_from_slice(&[record.flag, record.forced, record.bound]);
        }
        said
    }

    fn write(&self, head: [u32; 2], tasks: &[u32], buffer: &mut [u8], start: usize) -> compare_writing::Said {
        match asked(head[1], tasks) {
            Some((policy, tasks)) => {
                eskihrum::write_tasks(head[0], policy, &tasks, buffer, start).map_err(parts)
            }
            None => Flat.write(head, tasks, buffer, start),
        }
    }
}

// ---------------------------------------------------------------- the runs

#[test]
fn calls_with_levels_agree() {
    println!("levels: {} flat calls agree, seed 314", short(&Flat, 314).expect("flat levels, seed 314"));
    println!("levels: {} safe calls agree, seed 315", short(&Safe, 315).expect("safe levels, seed 315"));
}

/// The long run, with a seed from the environment: SEED=7 cargo test --release -- --ignored --nocapture
#[test]
#[ignore]
fn calls_with_levels_agree_at_length() {
    let seed = std::env::var("SEED").ok().and_then(|word| word.parse().ok()).unwrap_or(404);
    println!("levels: {} flat calls agree, seed {seed}", everything(&Flat, seed).expect("flat levels"));
    println!("levels: {} safe calls agree, seed {seed}", everything(&Safe, seed).expect("safe levels"));
}
