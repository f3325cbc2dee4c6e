//! The best form known of the planner's calls, in plain Rust: what the compiled archive is measured against.
//!
//! The answers are the archive's, coded alike. What makes it quick is in three files: `search` looks for the
//! least q of one task by a root of a piecewise linear lower bound of the sum, `caps` says once a search what
//! each share is capped by, and `passes` searches no task again from the start. Nothing here is proved: the
//! benchmark compares every answer with the archive's and with the second program's before it times one.

mod caps;
mod checks;
mod passes;
mod reader;
pub mod rows;
pub mod search;

pub use caps::caps_of;
pub use search::{Count, Tally};

use rows::{Row, Rows, PLACES};

/// Asks for the test; every other number asks for forcing.
pub const TEST: u32 = 0;

/// The refusals before a search, in one number: the place in the second byte, as in an answer.
pub(crate) type Fault = u32;

pub(crate) fn fault(number: u32, place: u32) -> Fault {
    number + 256 * place
}

/// The call on a plan text.
#[inline(never)]
pub fn plan(job: u32, text: &[u8], records: &mut [u32]) -> u64 {
    let mut rows = Rows::new();
    match reader::read(text, &mut rows) {
        0 => answer(job, &rows, records, &mut ()),
        fault => u64::from(fault),
    }
}

/// The call on cores, policy and a flat table.
#[inline(never)]
pub fn tasks(job: u32, cores: u32, policy: u32, tasks: &[u32], records: &mut [u32]) -> u64 {
    tasks_counted(job, cores, policy, tasks, records, &mut ())
}

/// The same with a tally of what the searches do. With the empty tally nothing is counted.
pub fn tasks_counted<T: Tally>(
    job: u32,
    cores: u32,
    policy: u32,
    tasks: &[u32],
    records: &mut [u32],
    tally: &mut T,
) -> u64 {
    let mut rows = Rows::new();
    match rows.fill(cores, policy, tasks) {
        0 => answer(job, &rows, records, tally),
        fault => u64::from(fault),
    }
}

/// What a legal table is answered: 13 before any search, where the caller's list has too little room.
fn answer<T: Tally>(job: u32, rows: &Rows, records: &mut [u32], tally: &mut T) -> u64 {
    let n = rows.n;
    if records.len() / 3 < n {
        return u64::from(fault(13, 0));
    }
    let mut flags = rows.given;
    let mut bounds = [0; PLACES];
    if job == TEST {
        passes::test(rows, &flags, &mut bounds, tally);
        put(rows, &flags, &bounds, records);
        return yes(bounds[..n].iter().all(|&bound| bound != 0));
    }
    let passes = u64::from(passes::force(rows, &mut flags, &mut bounds, tally)) << 24;
    match bounds[..n].iter().position(|&bound| bound == 0) {
        Some(k) => passes + u64::from(fault(14, k as u32 + 1)),
        None => yes(true) + passes + (put(rows, &flags, &bounds, records) << 16),
    }
}

/// Bit 32 for a yes.
fn yes(yes: bool) -> u64 {
    u64::from(yes) << 32
}

/// A record for each task; the number of forced ones.
fn put(rows: &Rows, flags: &Row, bounds: &Row, records: &mut [u32]) -> u64 {
    let mut forced = 0;
    for (i, record) in records.chunks_exact_mut(3).take(rows.n).enumerate() {
        let changed = rows.given[i] ^ flags[i];
        record.copy_from_slice(&[flags[i], changed, bounds[i]]);
        forced += changed;
    }
    u64::from(forced)
}
