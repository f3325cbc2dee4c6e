//! The three sides of the comparison: the best form, the archive, the textbook iteration. All take cores,
//! policy and a flat table, check it, and write records.

use crate::best;
use crate::plans::Plan;
use second::forcing::{force, test, Record};
use second::plan::{check_list, Refusal};
use second::textbook::bound_of;

/// Room for the records of the largest table.
pub const ROOM: usize = 96;

#[derive(Clone, Copy, PartialEq, Eq)]
pub enum Job {
    Test,
    Force,
}

impl Job {
    pub fn number(self) -> u32 {
        match self {
            Job::Test => best::TEST,
            Job::Force => 1,
        }
    }
}

/// A coded answer with its records.
type Answer = (u64, [u32; ROOM]);

fn filled(call: impl FnOnce(&mut [u32]) -> u64) -> Answer {
    let mut records = [0; ROOM];
    (call(&mut records), records)
}

pub fn best(job: Job, plan: &Plan, records: &mut [u32]) -> u64 {
    best::tasks(job.number(), plan.table.cores, plan.table.policy, &plan.numbers, records)
}

pub fn archive(job: Job, plan: &Plan, records: &mut [u32]) -> u64 {
    eskihrum::flat::tasks(job.number(), plan.table.cores, plan.table.policy, &plan.numbers, records)
}

/// The second program over the textbook iteration: whether it says yes, its records, and for forcing how
/// many tasks were forced in how many passes.
pub fn textbook(job: Job, plan: &Plan) -> Result<(bool, Vec<Record>, u32, u32), Refusal> {
    let table = check_list(plan.table.cores, plan.table.policy, &plan.table.tasks, ROOM / 3)?;
    match job {
        Job::Test => {
            let (yes, records) = test(&table, bound_of);
            Ok((yes, records, 0, 0))
        }
        Job::Force => {
            let forced = force(&table, bound_of)?;
            Ok((true, forced.records, forced.forced, forced.passes))
        }
    }
}

/// The same in the archive's code.
fn textbook_coded(job: Job, plan: &Plan) -> Answer {
    filled(|records| match textbook(job, plan) {
        Err(refusal) => u64::from(refusal.number + 256 * refusal.place + (refusal.passes << 24)),
        Ok((yes, found, forced, passes)) => {
            for (place, record) in records.chunks_exact_mut(3).zip(&found) {
                place.copy_from_slice(&[record.flag, record.forced, record.bound]);
            }
            (u64::from(yes) << 32) + u64::from((passes << 24) + (forced << 16))
        }
    })
}

/// Stops the program where two sides differ on a plan, as text or as numbers.
pub fn compare(job: Job, plan: &Plan, with_textbook: bool) {
    let shown = || String::from_utf8_lossy(&plan.text);
    let wanted = filled(|records| best(job, plan, records));
    let number = job.number();
    assert_eq!(filled(|records| archive(job, plan, records)), wanted, "archive, numbers\n{}", shown());
    if with_textbook {
        assert_eq!(textbook_coded(job, plan), wanted, "textbook\n{}", shown());
    }
    assert_eq!(filled(|records| best::plan(number, &plan.text, records)), wanted, "best, text\n{}", shown());
    let read = filled(|records| eskihrum::flat::plan(number, &plan.text, records));
    assert_eq!(read, wanted, "archive, text\n{}", shown());
}

/// The same for a text that may be damaged: the first fault and its line are compared too.
pub fn compare_text(job: Job, text: &[u8]) {
    let wanted = filled(|records| best::plan(job.number(), text, records));
    let read = filled(|records| eskihrum::flat::plan(job.number(), text, records));
    assert_eq!(read, wanted, "archive, text\n{}", String::from_utf8_lossy(text));
    let second = second::plan::read(text).err().map(|refusal| refusal.number + 256 * refusal.place);
    let refused = (wanted.0 & 0xFF) as u32;
    let read = (1..=12).contains(&refused).then_some(wanted.0 as u32);
    assert_eq!(second, read, "second, text\n{}", String::from_utf8_lossy(text));
}
