//! A safe wrapper over the proved planner, without the standard library and without allocation.
//!
//! A function for each job: the test says whether every task has a bound, forcing makes tasks non-preemptive
//! until the test passes. Both take a plan text ([`test_plan`], [`force_plan`]) or a list of tasks
//! ([`test_tasks`], [`force_tasks`]), and write a [`Record`] for each task into a list that the caller lends.
//! The same four take an [`Edition`] beside the rest ([`test_plan_in`] and so on), and give the round count.
//! Two more say how few cores would do: [`fewest_plan`] and [`fewest_tasks`].
//! Two more write a plan into a buffer: [`write_tasks`] that of a list of tasks, and [`write_changed`] that
//! of a plan text with the flags at the end of forcing, which is what a loader installs.
//!
//! ```
//! use eskihrum::{fewest_tasks, force_tasks, test_plan, test_tasks, write_changed, write_tasks};
//! use eskihrum::{Policy, Record, Task, PLAN_BYTES};
//!
//! let tasks = Task::in_places([Task::preemptive(12, 4, 12), Task::preemptive(24, 9, 18)]);
//! let mut room = [Record::default(); 2];
//!
//! assert!(!test_tasks(1, Policy::Fp, &tasks, &mut room)?.yes);
//!
//! let forced = force_tasks(1, Policy::Fp, &tasks, &mut room)?;
//! assert_eq!((forced.count, forced.passes, forced.word), (2, 3, 0b11));
//! assert_eq!(forced.records[0], Record { flag: 0, forced: 1, bound: 12 });
//!
//! let refusal = force_tasks(1, Policy::Edf, &tasks, &mut room).unwrap_err();
//! assert_eq!((refusal.number, refusal.passes), (14, 3));
//! println!("{refusal}\n{}", refusal.advice());
//!
//! let fewest = fewest_tasks(16, Policy::Edf, &tasks, &mut room)?;
//! assert_eq!((fewest.cores, fewest.forced.count), (2, 0));
//!
//! let (mut sent, mut changed) = ([0; PLAN_BYTES], [0; PLAN_BYTES]);
//! let end = write_tasks(1, Policy::Fp, &tasks, &mut sent, 0)?;
//! let end = write_changed(&sent[..end], &mut changed, 0)?;
//! assert!(test_plan(&changed[..end], &mut room)?.yes);
//! # Ok::<(), eskihrum::Refusal>(())
//! ```
//!
//! The planner is written and proved in Rattle and linked as an archive. Each function here says what the
//! planner promises; the promise is proved of the archive's source, while this package, which hands the lists
//! over to it, is trusted and tested. No function panics or keeps anything between calls. include/eskihrum.h
//! says what a call takes of stack and time.
//!
//! The archive is looked for in `ESKIHRUM_LIB_DIR`, or else where `tools/build.sh archive` puts it, in
//! target/staticlib at the root of the repository.

#![no_std]
#![warn(missing_docs)]

use core::fmt;

mod editions;
pub mod flat;
mod refusal;
mod texts;

pub use editions::{force_plan_in, force_tasks_in, test_plan_in, test_tasks_in, Edition, Rounded};
pub use refusal::{Place, Refusal};

/// Room for so many records is always enough: a table has at most so many tasks.
pub const TASKS: usize = 32;

/// Room for so many bytes from the start place on is always enough: no plan is longer.
pub const PLAN_BYTES: usize = 1003;

/// Which task a core runs first.
#[derive(Clone, Copy, Debug, PartialEq, Eq)]
pub enum Policy {
    /// Earliest deadline first.
    Edf = 0,
    /// Fixed priority: a task counts as higher than another if its level is smaller or equal.
    Fp = 1,
}

impl fmt::Display for Policy {
    fn fmt(&self, out: &mut fmt::Formatter<'_>) -> fmt::Result {
        out.write_str(match self {
            Policy::Edf => "EDF",
            Policy::Fp => "FP",
        })
    }
}

/// A task as it is given, in quanta: any numbers, and a wrong one gets its refusal.
///
/// Its level counts under [`Policy::Fp`]. Where the order of the list is that of the priorities,
/// [`Task::in_places`] or [`Task::set_places`] gives each task its place for a level.
#[derive(Clone, Copy, Debug, PartialEq, Eq)]
#[repr(C)]
pub struct Task {
    /// 1 for preemptive, 0 for non-preemptive.
    pub flag: u32,
    /// T, from 1 to 1,000,000 quanta.
    pub period: u32,
    /// C, from 1 to D.
    pub cost: u32,
    /// D, from 1 to T.
    pub deadline: u32,
    /// From 1, the highest, to 32; tasks may share one. Any other is refused with 17, under both policies.
    pub level: u32,
}

impl Task {
    /// A task that may be interrupted, by T, C and D. It has no level yet: 0, which is refused.
    pub const fn preemptive(period: u32, cost: u32, deadline: u32) -> Task {
        Task { flag: 1, period, cost, deadline, level: 0 }
    }

    /// A task that runs to its end once it has started, by T, C and D. It has no level yet: 0, which is
    /// refused.
    pub const fn non_preemptive(period: u32, cost: u32, deadline: u32) -> Task {
        Task { flag: 0, period, cost, deadline, level: 0 }
    }

    /// The same task on this level.
    pub const fn at(self, level: u32) -> Task {
        Task { level, ..self }
    }

    /// The same tasks with their places as levels: 1 for the first, and so on.
    pub const fn in_places<const N: usize>(mut tasks: [Task; N]) -> [Task; N] {
        let mut i = 0;
        while i < N {
            tasks[i].level = i as u32 + 1;
            i += 1;
        }
        tasks
    }

    /// Gives each task of a list its place as its level: 1 for the first, and so on.
    pub fn set_places(tasks: &mut [Task]) {
        for (level, task) in (1..).zip(tasks) {
            task.level = level;
        }
    }
}

/// What the planner says of a task.
#[derive(Clone, Copy, Debug, Default, PartialEq, Eq)]
#[repr(C)]
pub struct Record {
    /// The flag that was tested last: 1 for preemptive, 0 for non-preemptive.
    pub flag: u32,
    /// 1 if forcing changed the flag.
    pub forced: u32,
    /// The bound, or 0 for none.
    pub bound: u32,
}

/// What a test answers.
#[derive(Clone, Copy, Debug, PartialEq, Eq)]
pub struct Tested<'a> {
    /// Whether every task has a bound. A no is no refusal: the records without a bound say why.
    pub yes: bool,
    /// For each task its flag as given, no forced mark, and its bound.
    pub records: &'a [Record],
}

/// What forcing answers where it accepts. The flags in the records are what is to be installed.
#[derive(Clone, Copy, Debug, PartialEq, Eq)]
pub struct Forced<'a> {
    /// How many tasks were made non-preemptive.
    pub count: u32,
    /// How many tests of the whole table were made, the last included.
    pub passes: u32,
    /// The flags in the records as one word: bit 0 for task 1, a 1 for non-preemptive, zeros from bit n up.
    pub word: u32,
    /// For each task its flag at the end, a mark if it was changed, and the bound of the last test.
    pub records: &'a [Record],
}

/// The fewest cores, 1 to 16, with which forcing accepts, and what it answers with them. With every larger
/// number it accepts as well, and with every smaller one it refuses with 14.
#[derive(Clone, Copy, Debug, PartialEq, Eq)]
pub struct Fewest<'a> {
    /// Their number.
    pub cores: u32,
    /// What forcing answers with so many cores.
    pub forced: Forced<'a>,
}

/// The test of a plan text.
///
/// Every byte string is answered. The first records of `room` are those of the plan's tasks in table order,
/// and the others keep their contents; a refusal changes none. 13 is the refusal where there are fewer than
/// the plan has tasks.
pub fn test_plan<'a>(text: &[u8], room: &'a mut [Record]) -> Result<Tested<'a>, Refusal> {
    let mut answer = [0; flat::FIELDS];
    flat::test_plan(text, flat::numbers_mut(room), &mut answer);
    tested(answer, refusal::of_plan, room)
}

/// Forcing of a plan text, with its records as in [`test_plan`].
pub fn force_plan<'a>(text: &[u8], room: &'a mut [Record]) -> Result<Forced<'a>, Refusal> {
    let mut answer = [0; flat::FIELDS];
    flat::force_plan(text, flat::numbers_mut(room), &mut answer);
    forced(answer, refusal::of_plan, room)
}

/// The test of a list of tasks on 1 to 16 cores, with its records as in [`test_plan`].
pub fn test_tasks<'a>(
    cores: u32,
    policy: Policy,
    tasks: &[Task],
    room: &'a mut [Record],
) -> Result<Tested<'a>, Refusal> {
    let mut answer = [0; flat::FIELDS];
    let list = flat::numbers(tasks);
    flat::test_levels(cores, policy as u32, list, flat::numbers_mut(room), &mut answer);
    tested(answer, refusal::of_tasks, room)
}

/// Forcing of a list of tasks on 1 to 16 cores, with its records as in [`test_plan`].
pub fn force_tasks<'a>(
    cores: u32,
    policy: Policy,
    tasks: &[Task],
    room: &'a mut [Record],
) -> Result<Forced<'a>, Refusal> {
    let mut answer = [0; flat::FIELDS];
    let list = flat::numbers(tasks);
    flat::force_levels(cores, policy as u32, list, flat::numbers_mut(room), &mut answer);
    forced(answer, refusal::of_tasks, room)
}

/// The fewest cores for a plan text, with the records of that forcing as in [`test_plan`]. The number in the
/// head is checked, and otherwise not used. Where 16 cores are too few the refusal is 14, with place and
/// passes as found there.
pub fn fewest_plan<'a>(text: &[u8], room: &'a mut [Record]) -> Result<Fewest<'a>, Refusal> {
    let mut answer = [0; flat::FIELDS];
    flat::fewest_plan(text, flat::numbers_mut(room), &mut answer);
    let forced = forced(answer, refusal::of_plan, room)?;
    Ok(Fewest { cores: answer[flat::CORES], forced })
}

/// The fewest cores for a list of tasks, as in [`fewest_plan`]: `cores` is checked, and otherwise not used.
pub fn fewest_tasks<'a>(
    cores: u32,
    policy: Policy,
    tasks: &[Task],
    room: &'a mut [Record],
) -> Result<Fewest<'a>, Refusal> {
    let mut answer = [0; flat::FIELDS];
    let list = flat::numbers(tasks);
    flat::fewest_levels(cores, policy as u32, list, flat::numbers_mut(room), &mut answer);
    let forced = forced(answer, refusal::of_tasks, room)?;
    Ok(Fewest { cores: answer[flat::CORES], forced })
}

/// The plan of a list of tasks, from the place `start` of the buffer on; the answer is the place after its
/// last byte.
///
/// The bytes before the start and those after the end stay. 16 is the refusal where there is too little room
/// from the start place, or where it lies past the buffer's end; 18, after all others, is the one where the
/// levels are not 1, 2 and so on, since plan lines carry none. A refusal writes nothing.
pub fn write_tasks(
    cores: u32,
    policy: Policy,
    tasks: &[Task],
    buffer: &mut [u8],
    start: usize,
) -> Result<usize, Refusal> {
    let mut answer = [0; flat::FIELDS];
    flat::write_levels(cores, policy as u32, flat::numbers(tasks), buffer, start, &mut answer);
    ended(answer, refusal::of_tasks)
}

/// The plan of a text as changed: the table that it sends, with the flags at the end of forcing. It goes into
/// the buffer as in [`write_tasks`]; the refusals are those of [`force_plan`], and then 16.
pub fn write_changed(text: &[u8], buffer: &mut [u8], start: usize) -> Result<usize, Refusal> {
    let mut answer = [0; flat::FIELDS];
    flat::write_changed(text, buffer, start, &mut answer);
    ended(answer, refusal::of_plan)
}

/// The answer's numbers, in the order of the archive.
type Answer = [u32; flat::FIELDS];

fn tested(answer: Answer, refusal: fn(&Answer) -> Refusal, room: &[Record]) -> Result<Tested<'_>, Refusal> {
    unless_refused(&answer, refusal)?;
    Ok(Tested { yes: answer[flat::YES] == 1, records: written(&answer, room) })
}

fn forced(answer: Answer, refusal: fn(&Answer) -> Refusal, room: &[Record]) -> Result<Forced<'_>, Refusal> {
    unless_refused(&answer, refusal)?;
    let (count, passes, word) = (answer[flat::FORCED], answer[flat::PASSES], answer[flat::WORD]);
    Ok(Forced { count, passes, word, records: written(&answer, room) })
}

/// The end place. The archive is for machines whose places have 64 bits.
fn ended(answer: Answer, refusal: fn(&Answer) -> Refusal) -> Result<usize, Refusal> {
    unless_refused(&answer, refusal)?;
    Ok(answer[flat::END_HIGH] as usize * (1 << 32) + answer[flat::END_LOW] as usize)
}

fn unless_refused(answer: &Answer, refusal: fn(&Answer) -> Refusal) -> Result<(), Refusal> {
    if answer[flat::NUMBER] == 0 {
        Ok(())
    } else {
        Err(refusal(answer))
    }
}

/// The records that were written; there are never more than there was room for.
fn written<'a>(answer: &Answer, room: &'a [Record]) -> &'a [Record] {
    room.get(..answer[flat::RECORDS] as usize).unwrap_or(room)
}
