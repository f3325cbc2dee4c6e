//! The comparison of writers agrees with this program itself, and finds writers that break one promise.

use second::compare_writing::{compared, Said, Writer, OWN};

#[test]
fn this_program_agrees_with_itself() {
    assert!(compared(&OWN, 1, 300).unwrap() > 1_000);
}

fn finds(writer: Writer) {
    assert!(compared(&writer, 1, 300).is_err());
}

type Tasks = fn(u32, u32, &[u32], &mut [u8], usize) -> Said;
type Changed = fn(&[u8], &mut [u8], usize) -> Said;

const NEXT_BYTE: Tasks = |cores, policy, tasks, buffer, start| {
    let said = (OWN.tasks)(cores, policy, tasks, buffer, start);
    if let Ok(end) = said {
        if end < buffer.len() {
            buffer[end] = b'\n';
        }
    }
    said
};
const BYTE_BEFORE: Tasks = |cores, policy, tasks, buffer, start| {
    let said = (OWN.tasks)(cores, policy, tasks, buffer, start);
    if said.is_ok() && start > 0 {
        buffer[start - 1] = b'\n';
    }
    said
};
const SMALL_LETTERS: Tasks = |cores, policy, tasks, buffer, start| {
    let said = (OWN.tasks)(cores, policy, tasks, buffer, start);
    if let Ok(end) = said {
        buffer[start..end].make_ascii_lowercase();
    }
    said
};
const SIXTEEN_EARLY: Tasks = |cores, policy, tasks, buffer, start| {
    let before = buffer.to_vec();
    match (OWN.tasks)(cores, policy, tasks, buffer, start) {
        Ok(end) if end == buffer.len() => {
            buffer.copy_from_slice(&before);
            Err((16, 0, 0))
        }
        said => said,
    }
};
const WRITES_AND_REFUSES: Tasks = |cores, policy, tasks, buffer, start| {
    let said = (OWN.tasks)(cores, policy, tasks, buffer, start);
    if said == Err((16, 0, 0)) && start < buffer.len() {
        buffer[start] = b'0';
    }
    said
};
const FLAGS_AS_SENT: Changed = |text, buffer, start| {
    let said = (OWN.changed)(text, buffer, start);
    if let Ok(end) = said {
        buffer[start..end].copy_from_slice(text);
    }
    said
};
const NO_PASSES: Changed =
    |text, buffer, start| (OWN.changed)(text, buffer, start).map_err(|(number, place, _)| (number, place, 0));

#[test]
fn wrong_writers_are_found() {
    for tasks in [NEXT_BYTE, BYTE_BEFORE, SMALL_LETTERS, SIXTEEN_EARLY, WRITES_AND_REFUSES] {
        finds(Writer { tasks, ..OWN });
    }
    for changed in [FLAGS_AS_SENT, NO_PASSES] {
        finds(Writer { changed, ..OWN });
    }
}
