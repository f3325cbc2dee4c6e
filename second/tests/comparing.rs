//! The comparison agrees with this program itself, and finds planners that break one promise.

use second::compare::*;
use second::hand::case_a;
use second::word::COMPARED;

#[test]
fn this_program_agrees_with_itself() {
    assert!(small(&OWN, 37).unwrap() > 40_000);
    assert_eq!(edges(&OWN, 1, 60), Ok(240));
    assert_eq!(drawn(&OWN, 1, 500), Ok(2_000));
    assert_eq!(texts(&OWN, 1, 2_000), Ok(4_000));
    assert_eq!(lists(&OWN, 1, 2_000), Ok(4_000));
    assert!(short(&OWN, 1).unwrap() > 200_000);
}

#[test]
fn the_number_is_put_together_as_agreed() {
    let mut records = [7; 9];
    let numbers = flat_tasks(&case_a().tasks);
    assert_eq!((OWN.list)(TEST, 1, 1, &numbers, &mut records), (0, 0));
    assert_eq!(records, [1, 0, 4, 1, 0, 0, 7, 7, 7]);
    let told = (1 << 32) + (3 << 24) + (2 << 16);
    assert_eq!((OWN.list)(FORCE, 1, 1, &numbers, &mut records), (told, if COMPARED { 3 } else { 0 }));
    assert_eq!(records, [0, 1, 12, 0, 1, 17, 7, 7, 7]);
    // Under EDF: refused 14, place 1, three passes; the list stays.
    assert_eq!((OWN.list)(FORCE, 1, 0, &numbers, &mut records), ((3 << 24) + (1 << 8) + 14, 0));
    assert_eq!(records, [0, 1, 12, 0, 1, 17, 7, 7, 7]);
    assert_eq!((OWN.list)(FORCE, 1, 1, &numbers, &mut [0; 3]), (13, 0));
    assert_eq!((OWN.text)(TEST, b"", &mut [0; 3]), (256 + 1, 0));
}

fn finds(planner: Planner) {
    assert!(drawn(&planner, 1, 300).is_err() || lists(&planner, 1, 300).is_err());
}

fn writes_past_the_end(job: u32, cores: u32, policy: u32, tasks: &[u32], records: &mut [u32]) -> Told {
    let told = (OWN.list)(job, cores, policy, tasks, records);
    if told.0 >> 32 == 1 && records.len() > tasks.len() / 4 * 3 {
        records[tasks.len() / 4 * 3] = 0;
    }
    told
}

fn clears_when_refusing(job: u32, cores: u32, policy: u32, tasks: &[u32], records: &mut [u32]) -> Told {
    let told = (OWN.list)(job, cores, policy, tasks, records);
    if told.0 % 256 == 14 {
        records.fill(0);
    }
    told
}

fn writes_nothing_for_a_no(job: u32, cores: u32, policy: u32, tasks: &[u32], records: &mut [u32]) -> Told {
    let before = records.to_vec();
    let told = (OWN.list)(job, cores, policy, tasks, records);
    if job == TEST && told.0 == 0 {
        records.copy_from_slice(&before);
    }
    told
}

fn counts_no_passes(job: u32, text: &[u8], records: &mut [u32]) -> Told {
    let (told, word) = (OWN.text)(job, text, records);
    (told & !(0xFF << 24), word)
}

fn looks_at_the_room_first(job: u32, cores: u32, policy: u32, tasks: &[u32], records: &mut [u32]) -> Told {
    if records.len() / 3 < tasks.len() / 4 {
        return (13, 0);
    }
    (OWN.list)(job, cores, policy, tasks, records)
}

#[test]
fn broken_promises_are_found() {
    finds(Planner { list: writes_past_the_end, ..OWN });
    finds(Planner { list: clears_when_refusing, ..OWN });
    finds(Planner { list: writes_nothing_for_a_no, ..OWN });
    finds(Planner { text: counts_no_passes, ..OWN });
    finds(Planner { list: looks_at_the_room_first, ..OWN });
}

/// Takes a minute or so; this is the run for a planner that is linked in.
#[test]
#[ignore]
fn everything_agrees_with_itself() {
    println!("{} calls", everything(&OWN, 1).unwrap());
}
