//! The wrapper's promises on document 01's cases, each in a few lines: what every function writes, tells and
//! refuses. A quick run that catches the wrong wrappers of checks/wrong.

use eskihrum::{flat, force_plan, force_tasks, test_plan, test_tasks, write_changed, write_tasks};
use eskihrum::{Forced, Place, Policy, Record, Refusal, Task, Tested, PLAN_BYTES};

const B: &[u8] = include_bytes!("../../examples/b.plan");
const D: &[u8] = include_bytes!("../../examples/d.plan");
const I: &[u8] = include_bytes!("../../examples/i.plan");
/// The longest plan: 32 tasks in 1,003 bytes.
const LONGEST: &[u8] = include_bytes!("../../corpus/good/most-tasks.plan");

/// Cases a and b: (12,4,12,P) (24,9,18,P).
const TASKS: [Task; 2] = Task::in_places([Task::preemptive(12, 4, 12), Task::preemptive(24, 9, 18)]);

/// What stands in the caller's list before a call; no answer holds it.
const KEPT: Record = Record { flag: 7, forced: 8, bound: 9 };

const fn record(flag: u32, forced: u32, bound: u32) -> Record {
    Record { flag, forced, bound }
}

/// Case a: tested as given, 4 and none; a no, and no refusal.
const A_TESTED: [Record; 2] = [record(1, 0, 4), record(1, 0, 0)];
/// Case b: forced, 12 and 17.
const B_FORCED: [Record; 2] = [record(0, 1, 12), record(0, 1, 17)];

fn refusal(number: u32, place: Place, passes: u32) -> Refusal {
    Refusal { number, place, passes }
}

#[test]
fn a_test_tells_its_records_and_keeps_the_rest() {
    let mut room = [KEPT; 4];
    let told = test_tasks(1, Policy::Fp, &TASKS, &mut room);
    assert_eq!(told, Ok(Tested { yes: false, records: &A_TESTED }));
    assert_eq!(room[2..], [KEPT; 2]);

    let mut room = [KEPT; 4];
    assert_eq!(test_plan(B, &mut room), Ok(Tested { yes: false, records: &A_TESTED }));
    assert_eq!(room[2..], [KEPT; 2]);
}

/// Case c is a yes: 4 and 17.
#[test]
fn a_yes_is_a_yes() {
    let tasks = Task::in_places([Task::preemptive(12, 4, 11), TASKS[1]]);
    let mut room = [KEPT; 2];
    let told = test_tasks(1, Policy::Fp, &tasks, &mut room);
    assert_eq!(told, Ok(Tested { yes: true, records: &[record(1, 0, 4), record(1, 0, 17)] }));
    let told = force_tasks(1, Policy::Fp, &tasks, &mut room);
    assert_eq!(
        told,
        Ok(Forced { count: 0, passes: 1, word: 0, records: &[record(1, 0, 4), record(1, 0, 17)] })
    );
}

#[test]
fn forcing_tells_its_records_and_keeps_the_rest() {
    let mut room = [KEPT; 4];
    let told = force_tasks(1, Policy::Fp, &TASKS, &mut room);
    assert_eq!(told, Ok(Forced { count: 2, passes: 3, word: 3, records: &B_FORCED }));
    assert_eq!(room[2..], [KEPT; 2]);

    let mut room = [KEPT; 4];
    assert_eq!(force_plan(B, &mut room), Ok(Forced { count: 2, passes: 3, word: 3, records: &B_FORCED }));
    assert_eq!(room[2..], [KEPT; 2]);
}

/// Case f: the same tasks under EDF end in 14 at task 1; on two cores each bound is C.
#[test]
fn policy_and_cores_arrive() {
    let mut room = [KEPT; 2];
    assert_eq!(force_tasks(1, Policy::Edf, &TASKS, &mut room), Err(refusal(14, Place::Task(1), 3)));
    assert_eq!(room, [KEPT; 2]);
    let told = test_tasks(2, Policy::Edf, &TASKS, &mut room);
    assert_eq!(told, Ok(Tested { yes: true, records: &[record(1, 0, 4), record(1, 0, 9)] }));
    assert_eq!(test_tasks(17, Policy::Fp, &TASKS, &mut room), Err(refusal(5, Place::Nowhere, 0)));
}

#[test]
fn a_given_non_preemptive_task_stays_so() {
    let tasks = Task::in_places([Task::preemptive(12, 4, 11), Task::non_preemptive(24, 9, 18)]);
    let mut room = [KEPT; 2];
    assert_eq!(force_tasks(1, Policy::Fp, &tasks, &mut room), Err(refusal(14, Place::Task(1), 2)));
    assert_eq!(force_plan(D, &mut room), Err(refusal(14, Place::Task(1), 2)));
    assert_eq!(room, [KEPT; 2]);
}

/// Case i has the place 2 and four passes, so that neither is mistaken for the other or for a 1.
#[test]
fn place_and_passes_arrive_whole() {
    let mut room = [KEPT; 3];
    assert_eq!(force_plan(I, &mut room), Err(refusal(14, Place::Task(2), 4)));
    let last_is_wrong: Vec<Task> = (0..32).map(|i| Task { cost: u32::from(i < 31), ..TASKS[0] }).collect();
    let mut room = [KEPT; 32];
    assert_eq!(test_tasks(1, Policy::Fp, &last_is_wrong, &mut room), Err(refusal(11, Place::Task(32), 0)));
    assert_eq!(room, [KEPT; 32]);
}

/// 32 tasks of which each pass forces one, from the last to the first, since task k stands one lower
/// non-preemptive task less than there are at the end: 33 passes, the most there are. All have T = 1,000,000
/// (but for task 1) and C = 1 (but for task 32), so that in these lengths each brings its C to a sum, and
/// task 1 twice that.
///
/// Accepted: task 1 is (33,1,33), tasks 2 to 31 have D = 34, task 32 is (1000000,3,35). As preemptive task 32
/// ends at 36, since task 1 comes a third time at 35; as non-preemptive it starts at 33. Task k then has k +
/// 3, task 1 has 3. Refused: with C = 1 and D = 31 throughout, task 32 comes to 32 either way.
#[test]
fn the_largest_counts_arrive_whole() {
    let mut tasks = [Task::preemptive(1_000_000, 1, 34); 32];
    tasks[0] = Task::preemptive(33, 1, 33);
    tasks[31] = Task::preemptive(1_000_000, 3, 35);
    Task::set_places(&mut tasks);
    let bounds: Vec<u32> = std::iter::once(3).chain(5..=34).chain([35]).collect();
    let mut room = [KEPT; 32];
    let told = force_tasks(1, Policy::Fp, &tasks, &mut room).expect("it is accepted");
    assert_eq!((told.count, told.passes, told.word), (32, 33, u32::MAX));
    assert!(told.records.iter().zip(bounds).all(|(told, bound)| *told == record(0, 1, bound)));

    let mut room = [KEPT; 32];
    let tasks = Task::in_places([Task::preemptive(1_000_000, 1, 31); 32]);
    assert_eq!(force_tasks(1, Policy::Fp, &tasks, &mut room), Err(refusal(14, Place::Task(32), 33)));
    assert_eq!(room, [KEPT; 32]);
}

/// The word has a 1 for each non-preemptive task, bit 0 for task 1; a test's has the flags as given, and that
/// of a refusal is 0.
#[test]
fn the_word_arrives_in_order() {
    let given =
        [Task::non_preemptive(100, 1, 50), Task::preemptive(100, 1, 60), Task::preemptive(100, 1, 70)];
    let given = Task::in_places(given);
    let mut room = [KEPT; 3];
    let told = force_tasks(1, Policy::Fp, &given, &mut room).expect("it is accepted");
    assert_eq!((told.count, told.word), (0, 0b001));
    let numbers = [0, 100, 1, 50, 1, 100, 1, 60, 0, 100, 1, 70];
    let mut answer = [7; flat::FIELDS];
    flat::test_tasks(1, 1, &numbers, &mut [0; 9], &mut answer);
    assert_eq!(answer[flat::WORD], 0b101);
    flat::force_plan(D, &mut [0; 6], &mut answer);
    assert_eq!((answer[flat::NUMBER], answer[flat::WORD]), (14, 0));
}

/// Every byte counts, and so does every byte that is missing.
#[test]
fn the_text_arrives_whole() {
    let mut room = [KEPT; 2];
    assert_eq!(force_plan(b"", &mut room), Err(refusal(1, Place::Line(1), 0)));
    assert_eq!(test_plan(&B[..B.len() - 1], &mut room), Err(refusal(1, Place::Line(3), 0)));
    assert_eq!(force_plan(&B[..B.len() - 1], &mut room), Err(refusal(1, Place::Line(3), 0)));
    let longer = [B, b"\n"].concat();
    assert_eq!(test_plan(&longer, &mut room), Err(refusal(12, Place::Line(4), 0)));
    assert_eq!(force_plan(&longer, &mut room), Err(refusal(12, Place::Line(4), 0)));
    assert_eq!(room, [KEPT; 2]);
    let mut room = [KEPT; 32];
    assert_eq!(force_plan(LONGEST, &mut room).map(|told| told.records.len()), Ok(32));
    let mut room = [KEPT; 32];
    let longer = [LONGEST, b"\n"].concat();
    assert_eq!(test_plan(&longer, &mut room), Err(refusal(12, Place::Line(34), 0)));
    assert_eq!(force_plan(&longer, &mut room), Err(refusal(12, Place::Line(34), 0)));
    assert_eq!(room, [KEPT; 32]);
}

/// The planner sees the caller's room and nothing behind it, by each of the four ways.
#[test]
fn the_list_ends_where_the_caller_says() {
    let tasks = Task::in_places([Task::preemptive(1_000_000, 1, 1_000_000); 32]);
    let full = Some(refusal(13, Place::Nowhere, 0));
    let mut list = [KEPT; 80];
    for room in [0, 1, 20, 31] {
        assert_eq!(test_plan(LONGEST, &mut list[..room]).err(), full);
        assert_eq!(force_plan(LONGEST, &mut list[..room]).err(), full);
        assert_eq!(test_tasks(1, Policy::Fp, &tasks, &mut list[..room]).err(), full);
        assert_eq!(force_tasks(1, Policy::Fp, &tasks, &mut list[..room]).err(), full);
        assert_eq!(list, [KEPT; 80]);
    }
}

/// All tasks of the longest list arrive, and one more is refused. The last task waits for two jobs of each of
/// the 31 others: from l = 2 on W = 1 + min(1, l - 1) = 2, and so its bound is 1 + 62.
#[test]
fn the_tasks_arrive_whole() {
    let tasks = Task::in_places([Task::preemptive(1_000_000, 1, 1_000_000); 33]);
    let mut room = [KEPT; 40];
    let told = test_tasks(1, Policy::Fp, &tasks[..32], &mut room).expect("32 tasks are a table");
    assert_eq!(told.records.len(), 32);
    assert_eq!(told.records[31].bound, 63);
    assert_eq!(room[32..], [KEPT; 8]);
    assert_eq!(test_tasks(1, Policy::Fp, &tasks, &mut room), Err(refusal(7, Place::Nowhere, 0)));
    assert_eq!(force_tasks(1, Policy::Fp, &[], &mut room), Err(refusal(7, Place::Nowhere, 0)));
}

/// Cases a and b as plans: document 01's lines, and those of the same table with both flags 0.
const A_TEXT: &[u8] = b"01010102FB\n02010000000C000000040000000CE1\n0201000000180000000900000012CA\n";
const B_TEXT: &[u8] = b"01010102FB\n02000000000C000000040000000CE2\n0200000000180000000900000012CB\n";

/// The text in the middle, the bytes around it, and the end place; 16 where one byte is missing.
#[test]
fn plans_are_written_in_their_place() {
    for (text, by_text) in [(A_TEXT, false), (B_TEXT, true)] {
        let run = |buffer: &mut [u8], start| match by_text {
            true => write_changed(A_TEXT, buffer, start),
            false => write_tasks(1, Policy::Fp, &TASKS, buffer, start),
        };
        let mut buffer = [b'#'; 80];
        assert_eq!(run(&mut buffer, 3), Ok(76));
        assert_eq!(buffer[..], [b"###", text, b"####"].concat());
        assert_eq!(run(&mut [0; 73], 0), Ok(73));
        let mut buffer = [b'#'; 80];
        for (room, start) in [(72, 0), (75, 3), (0, 0), (80, 80), (80, 81), (80, usize::MAX)] {
            assert_eq!(run(&mut buffer[..room], start), Err(refusal(16, Place::Nowhere, 0)));
        }
        assert_eq!(buffer, [b'#'; 80]);
    }
}

/// The longest plan is written whole, and tested as changed it says yes.
#[test]
fn what_is_written_is_read() {
    let tasks = Task::in_places([Task::preemptive(1_000_000, 1, 1_000_000); 32]);
    let mut sent = [0; PLAN_BYTES];
    assert_eq!(write_tasks(16, Policy::Edf, &tasks, &mut sent, 0), Ok(PLAN_BYTES));
    let mut room = [KEPT; 32];
    assert_eq!(test_plan(&sent, &mut room).map(|told| told.records.len()), Ok(32));
    let mut changed = [0; PLAN_BYTES];
    let end = write_changed(B, &mut changed, 0).expect("case b is accepted");
    assert_eq!(test_plan(&changed[..end], &mut room).map(|told| told.yes), Ok(true));
    let told = force_plan(&changed[..end], &mut room);
    assert_eq!(told.map(|told| (told.count, told.passes)), Ok((0, 1)));
}

#[test]
fn writers_refuse_as_the_others_do() {
    let mut buffer = [b'#'; 80];
    let zero = [TASKS[0], Task { cost: 0, ..TASKS[1] }];
    for (told, wanted) in [
        (write_tasks(17, Policy::Fp, &TASKS, &mut buffer, 0), refusal(5, Place::Nowhere, 0)),
        (write_tasks(1, Policy::Fp, &[], &mut buffer, 99), refusal(7, Place::Nowhere, 0)),
        (write_tasks(1, Policy::Fp, &[TASKS[0]; 33], &mut buffer, 0), refusal(7, Place::Nowhere, 0)),
        (write_tasks(1, Policy::Edf, &zero, &mut buffer, 99), refusal(11, Place::Task(2), 0)),
        (write_changed(&B[..B.len() - 1], &mut buffer, 0), refusal(1, Place::Line(3), 0)),
        (write_changed(I, &mut buffer, 99), refusal(14, Place::Task(2), 4)),
    ] {
        assert_eq!(told, Err(wanted));
    }
    assert_eq!(buffer, [b'#'; 80]);
}

/// Tasks and records as numbers: every one of them, in order.
#[test]
fn numbers_are_the_fields_in_order() {
    assert_eq!(flat::numbers(&TASKS), [1, 12, 4, 12, 1, 1, 24, 9, 18, 2]);
    assert_eq!(flat::numbers_mut(&mut B_FORCED.clone()), [0, 1, 12, 0, 1, 17]);
    assert!(flat::numbers(&[]).is_empty());
}

/// A short answer gets the first of its numbers, a longer one keeps what is past them.
#[test]
fn a_lent_answer_is_written_as_far_as_it_goes() {
    for room in 0..20 {
        let mut answer = [5; 20];
        let mut records = [6; 6];
        assert_eq!(flat::force_plan(B, &mut records, &mut answer[..room]), 1);
        let told = [0, 0, 1, 2, 3, 2, 0, 0, 3, 0, 0, 0, 0, 0, 0, 0, 5, 5, 5, 5];
        assert_eq!(answer[..room], told[..room]);
        assert_eq!(answer[room..], [5; 20][room..]);
        assert_eq!(records, [0, 1, 12, 0, 1, 17]);
    }
    assert_eq!(flat::abi(), flat::ABI);
}

/// The answer of a writer: the yes, the end place in its two halves, and nothing else.
#[test]
fn a_writer_tells_its_end() {
    for room in 0..20 {
        let (mut answer, mut buffer) = ([5; 20], [b'#'; 90]);
        assert_eq!(flat::write_changed(B, &mut buffer, 9, &mut answer[..room]), 1);
        let told = [0, 0, 1, 0, 0, 0, 0, 0, 0, 82, 0, 0, 0, 0, 0, 0, 5, 5, 5, 5];
        assert_eq!(answer[..room], told[..room]);
        assert_eq!(answer[room..], [5; 20][room..]);
        assert_eq!(buffer[9..82], *B_TEXT);
        let numbers = flat::numbers(&TASKS);
        assert_eq!(flat::write_levels(1, 2, numbers, &mut buffer, 9, &mut answer[..room]), 0);
        let told = [6, 0, 0, 0, 0, 0, 0, 0, 0, 0, 0, 0, 0, 0, 0, 0, 5, 5, 5, 5];
        assert_eq!(answer[..room], told[..room]);
        assert_eq!(answer[room..], [5; 20][room..]);
    }
}

/// A refusal says what is wrong and where, and what to do.
#[test]
fn refusals_in_words() {
    let says = |told: Refusal, words: &str| assert_eq!(told.to_string(), words);
    says(
        refusal(4, Place::Line(3), 0),
        "refused 4 at line 3 (task 2): \
         The line's first byte is not the kind that is due: 01 for the head, 02 for a task.",
    );
    says(
        refusal(5, Place::Line(1), 0),
        "refused 5 at line 1 (the head): The number of cores is not 1 to 16.",
    );
    says(refusal(12, Place::Line(4), 0), "refused 12 at line 4: Bytes follow the last line.");
    says(
        refusal(13, Place::Nowhere, 0),
        "refused 13: The caller's list has fewer records than the table has tasks.",
    );
    assert!(refusal(11, Place::Task(2), 0).to_string().starts_with("refused 11 at task 2: "));
    assert!(refusal(14, Place::Task(1), 2).to_string().starts_with("refused 14 at task 1 after 2 passes: "));
    assert!(refusal(14, Place::Task(1), 1).to_string().starts_with("refused 14 at task 1 after 1 pass: "));
    assert_eq!(refusal(5, Place::Nowhere, 0).advice(), "Give the number of cores of the chip.");
    assert!(refusal(16, Place::Nowhere, 0).to_string().starts_with("refused 16: The buffer has too little"));
    assert_eq!(refusal(17, Place::Task(2), 0).to_string(), "refused 17 at task 2: The level is not 1 to 32.");
    assert_eq!(refusal(19, Place::Nowhere, 0).text(), "There is no such refusal.");
    assert_eq!(refusal(99, Place::Nowhere, 0).text(), "There is no such refusal.");
    assert_eq!(refusal(0, Place::Nowhere, 0).advice(), "There is no such refusal.");
    assert_eq!([Policy::Edf.to_string(), Policy::Fp.to_string()], ["EDF", "FP"]);
}
