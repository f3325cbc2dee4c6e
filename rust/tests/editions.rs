//! The wrapper's promises under the second edition: document 01's cases, and tables in which each part of the
//! second edition counts. The numbers were worked out apart from the archive. A quick run.

use eskihrum::{flat, force_plan_in, force_tasks_in, test_plan_in, test_tasks_in};
use eskihrum::{Edition, Forced, Place, Policy, Record, Refusal, Rounded, Task, Tested};
use Edition::{First, Second};
use Policy::{Edf, Fp};

const B: &[u8] = include_bytes!("../../examples/b.plan");
const D: &[u8] = include_bytes!("../../examples/d.plan");
const I: &[u8] = include_bytes!("../../examples/i.plan");

const KEPT: Record = Record { flag: 7, forced: 8, bound: 9 };

const fn p(period: u32, cost: u32, deadline: u32) -> Task {
    Task::preemptive(period, cost, deadline)
}

const fn n(period: u32, cost: u32, deadline: u32) -> Task {
    Task::non_preemptive(period, cost, deadline)
}

fn record((flag, forced, bound): (u32, u32, u32)) -> Record {
    Record { flag, forced, bound }
}

/// What a test is to say: its rounds and the bounds.
type Tests<'a> = (u32, &'a [u32]);
/// What forcing is to say: rounds, passes, and flag, forced mark and bound of each task; or 15.
type Forces<'a> = Result<(u32, u32, &'a [(u32, u32, u32)]), (u32, u32)>;

fn case(cores: u32, policy: Policy, tasks: &[Task], tests: Tests, forces: Forces) {
    let mut tasks = tasks.to_vec();
    Task::set_places(&mut tasks);
    let (tasks, mut room) = (&tasks[..], [KEPT; 5]);
    let records: Vec<Record> = tasks.iter().zip(tests.1).map(|(t, b)| record((t.flag, 0, *b))).collect();
    let yes = tests.1.iter().all(|bound| *bound > 0);
    let told = test_tasks_in(Second, cores, policy, tasks, &mut room);
    assert_eq!(told, Ok(Rounded { told: Tested { yes, records: &records }, rounds: tests.0 }));
    assert!(room[tasks.len()..].iter().all(|record| *record == KEPT));

    let mut room = [KEPT; 5];
    let told = force_tasks_in(Second, cores, policy, tasks, &mut room);
    match forces {
        Ok((rounds, passes, records)) => {
            let records: Vec<Record> = records.iter().map(|three| record(*three)).collect();
            let count = records.iter().map(|record| record.forced).sum();
            let word = records.iter().rev().fold(0, |word, one| 2 * word + u32::from(one.flag == 0));
            assert_eq!(told, Ok(Rounded { told: Forced { count, passes, word, records: &records }, rounds }));
        }
        Err((place, passes)) => {
            let place = Place::Task(place);
            assert_eq!(told, Err(Refusal { number: 15, place, passes }));
            assert_eq!(room, [KEPT; 5]);
        }
    }
}

/// Cases a, b, d, e, f, h, i, j and k: what edition 1 forces or refuses passes here as sent.
#[test]
fn document_01_cases_under_the_second_edition() {
    case(1, Fp, &[p(12, 4, 12), p(24, 9, 18)], (3, &[4, 17]), Ok((3, 1, &[(1, 0, 4), (1, 0, 17)])));
    case(1, Fp, &[p(12, 4, 11), n(24, 9, 18)], (2, &[0, 13]), Err((1, 2)));
    case(1, Edf, &[p(12, 4, 12), p(24, 9, 18)], (2, &[0, 17]), Err((1, 3)));
    let h = [p(10, 4, 10), p(10, 4, 10), p(20, 8, 19)];
    case(2, Fp, &h, (3, &[4, 4, 16]), Ok((3, 1, &[(1, 0, 4), (1, 0, 4), (1, 0, 16)])));
    let j = [p(10, 4, 10), p(10, 4, 10), p(20, 8, 20)];
    case(3, Fp, &j, (2, &[4, 4, 8]), Ok((2, 1, &[(1, 0, 4), (1, 0, 4), (1, 0, 8)])));
    case(1, Edf, &[n(10, 4, 10)], (2, &[4]), Ok((2, 1, &[(0, 0, 4)])));
}

/// Slack in W and in E, five rounds, a difference that takes a bound away, the lowest preemptive task forced
/// though it has a bound, 15 though other flags pass, and a pass more than edition 1.
#[test]
fn each_part_of_the_second_edition_counts() {
    case(1, Edf, &[p(5, 1, 5), n(2, 1, 2)], (4, &[2, 1]), Ok((4, 1, &[(1, 0, 2), (0, 0, 1)])));
    case(1, Edf, &[p(6, 2, 6), p(4, 1, 3)], (5, &[3, 1]), Ok((5, 1, &[(1, 0, 3), (1, 0, 1)])));
    case(1, Edf, &[n(2, 1, 1), n(6, 2, 6)], (2, &[0, 3]), Err((1, 1)));
    let lowest = [p(3, 1, 3), p(5, 1, 5), n(5, 1, 3)];
    case(1, Fp, &lowest, (2, &[2, 5, 0]), Ok((3, 2, &[(0, 1, 1), (1, 0, 3), (0, 0, 3)])));
    case(1, Fp, &[p(2, 1, 2), n(5, 1, 5), p(9, 2, 9)], (2, &[2, 3, 0]), Err((3, 3)));
    let more = [p(8, 1, 7), p(8, 2, 7), n(29, 4, 29)];
    case(1, Fp, &more, (3, &[5, 0, 10]), Ok((4, 3, &[(0, 1, 4), (0, 1, 6), (0, 0, 7)])));
}

/// A plan text is answered as its tasks are, and refused as under edition 1 up to 13.
#[test]
fn texts_under_the_second_edition() {
    let mut room = [KEPT; 4];
    let records = [record((1, 0, 4)), record((1, 0, 17))];
    let told = test_plan_in(Second, B, &mut room);
    assert_eq!(told, Ok(Rounded { told: Tested { yes: true, records: &records }, rounds: 3 }));
    let told = force_plan_in(Second, B, &mut room);
    let forced = Forced { count: 0, passes: 1, word: 0, records: &records };
    assert_eq!(told, Ok(Rounded { told: forced, rounds: 3 }));
    assert_eq!(room[2..], [KEPT; 2]);
    let fifteen = Refusal { number: 15, place: Place::Task(1), passes: 2 };
    assert_eq!(force_plan_in(Second, D, &mut room), Err(fifteen));
    assert_eq!(force_plan_in(Second, I, &mut room).map(|told| (told.told.passes, told.rounds)), Ok((1, 3)));
    let full = Refusal { number: 13, place: Place::Nowhere, passes: 0 };
    assert_eq!(test_plan_in(Second, D, &mut room[..1]), Err(full));
    assert_eq!(force_plan_in(Second, D, &mut room[..1]), Err(full));
    let short = Refusal { number: 1, place: Place::Line(3), passes: 0 };
    assert_eq!(force_plan_in(Second, &B[..B.len() - 1], &mut room), Err(short));
    assert!(fifteen.to_string().starts_with("refused 15 at task 1 after 2 passes: Forcing under the second"));
}

/// The first edition is what it was, and has no rounds.
#[test]
fn the_first_edition_has_no_rounds() {
    let mut room = [KEPT; 3];
    let tasks = Task::in_places([p(12, 4, 12), p(24, 9, 18)]);
    let records = [record((0, 1, 12)), record((0, 1, 17))];
    let forced = Forced { count: 2, passes: 3, word: 3, records: &records };
    let forced = Ok(Rounded { told: forced, rounds: 0 });
    assert_eq!(force_tasks_in(First, 1, Fp, &tasks, &mut room), forced);
    assert_eq!(force_plan_in(First, B, &mut room), forced);
    assert_eq!(test_tasks_in(First, 1, Fp, &tasks, &mut room).map(|told| told.rounds), Ok(0));
    assert_eq!(test_plan_in(First, B, &mut room).map(|told| (told.told.yes, told.rounds)), Ok((false, 0)));
    let fourteen = Refusal { number: 14, place: Place::Task(2), passes: 4 };
    assert_eq!(force_plan_in(First, I, &mut room), Err(fourteen));
}

/// Many rounds arrive whole: 401 for a pair, and 400,000 for a longer one.
#[test]
fn a_large_round_count_arrives_whole() {
    let mut room = [KEPT; 2];
    let tasks = Task::in_places([p(1_000, 402, 1_000), p(801, 199, 598)]);
    assert_eq!(test_tasks_in(Second, 1, Edf, &tasks, &mut room).map(|told| told.rounds), Ok(401));
    let tasks = Task::in_places([p(1_000_000, 399_998, 999_998), p(799_997, 199_999, 600_000)]);
    assert_eq!(test_tasks_in(Second, 1, Edf, &tasks, &mut room).map(|told| told.rounds), Ok(400_000));
}

/// The lent answer: the round count stands at its place, and a short answer gets what it has room for.
#[test]
fn the_round_count_stands_in_its_place() {
    for room in 0..20 {
        let (mut answer, mut records) = ([5; 20], [6; 6]);
        assert_eq!(flat::force_plan_2(B, &mut records, &mut answer[..room]), 1);
        let told = [0, 0, 1, 0, 1, 2, 3, 0, 0, 0, 0, 0, 0, 0, 0, 0, 5, 5, 5, 5];
        assert_eq!(answer[..room], told[..room]);
        assert_eq!(answer[room..], [5; 20][room..]);
        assert_eq!(records, [1, 0, 4, 1, 0, 17]);
        assert_eq!(flat::force_plan_2(D, &mut records, &mut answer[..room]), 0);
        let told = [15, 1, 0, 0, 2, 0, 0, 0, 0, 0, 0, 0, 0, 0, 0, 0, 5, 5, 5, 5];
        assert_eq!(answer[..room], told[..room]);
    }
}
