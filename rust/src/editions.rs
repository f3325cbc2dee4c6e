//! The jobs with the edition beside them: either edition of the test, and the round count of the last test.

use crate::{flat, forced, refusal, tested, Answer};
use crate::{Forced, Policy, Record, Refusal, Task, Tested};

/// Which edition of the test is asked for.
#[derive(Clone, Copy, Debug, PartialEq, Eq)]
pub enum Edition {
    /// Document 01's test; 14 says that no assignment passes.
    First,
    /// Document 02's, in rounds with slacks: it accepts what the first does, and more. 15 does not say that
    /// no assignment passes, and a test can need many rounds.
    Second,
}

/// An answer, and how many rounds its last test had: 0 under the first edition.
#[derive(Clone, Copy, Debug, PartialEq, Eq)]
pub struct Rounded<T> {
    /// What is answered, as without an edition.
    pub told: T,
    /// The round count, the last round included; a test's no has one too.
    pub rounds: u32,
}

/// The test of a plan text, as [`crate::test_plan`].
pub fn test_plan_in<'a>(
    edition: Edition,
    text: &[u8],
    room: &'a mut [Record],
) -> Result<Rounded<Tested<'a>>, Refusal> {
    let run = [flat::test_plan, flat::test_plan_2][edition as usize];
    let answer = filled(|answer| run(text, flat::numbers_mut(room), answer));
    rounded(&answer, tested(answer, refusal::of_plan, room))
}

/// Forcing of a plan text, as [`crate::force_plan`].
pub fn force_plan_in<'a>(
    edition: Edition,
    text: &[u8],
    room: &'a mut [Record],
) -> Result<Rounded<Forced<'a>>, Refusal> {
    let run = [flat::force_plan, flat::force_plan_2][edition as usize];
    let answer = filled(|answer| run(text, flat::numbers_mut(room), answer));
    rounded(&answer, forced(answer, refusal::of_plan, room))
}

/// The test of a list of tasks, as [`crate::test_tasks`].
pub fn test_tasks_in<'a>(
    edition: Edition,
    cores: u32,
    policy: Policy,
    tasks: &[Task],
    room: &'a mut [Record],
) -> Result<Rounded<Tested<'a>>, Refusal> {
    let (run, list) = ([flat::test_levels, flat::test_levels_2][edition as usize], flat::numbers(tasks));
    let answer = filled(|answer| run(cores, policy as u32, list, flat::numbers_mut(room), answer));
    rounded(&answer, tested(answer, refusal::of_tasks, room))
}

/// Forcing of a list of tasks, as [`crate::force_tasks`].
pub fn force_tasks_in<'a>(
    edition: Edition,
    cores: u32,
    policy: Policy,
    tasks: &[Task],
    room: &'a mut [Record],
) -> Result<Rounded<Forced<'a>>, Refusal> {
    let (run, list) = ([flat::force_levels, flat::force_levels_2][edition as usize], flat::numbers(tasks));
    let answer = filled(|answer| run(cores, policy as u32, list, flat::numbers_mut(room), answer));
    rounded(&answer, forced(answer, refusal::of_tasks, room))
}

/// The numbers of an answer that a call fills in.
fn filled(run: impl FnOnce(&mut [u32]) -> u32) -> Answer {
    let mut answer = [0; flat::FIELDS];
    run(&mut answer);
    answer
}

fn rounded<T>(answer: &Answer, told: Result<T, Refusal>) -> Result<Rounded<T>, Refusal> {
    told.map(|told| Rounded { told, rounds: answer[flat::ROUNDS] })
}
