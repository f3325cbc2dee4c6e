//! Wrong searches for the fewest cores, each with one slip. The tables made for it must give each away.

use crate::compare::{bound_of, unflat};
use crate::edition2;
use crate::fewest::{on_cores, Fewest};
use crate::fewest_compare::{answer, deliver, Answer, Said, Searcher};
use crate::forcing::{bounds, force, test, Forced};
use crate::plan::{check_list, check_text, refuse, Refusal, Table, MOST_CORES};

#[derive(Clone, Copy, Debug, PartialEq, Eq)]
pub enum Slip {
    /// No slip.
    Right,
    /// One core more than is needed, and all that belongs to it.
    OneCoreTooMany,
    /// One core more is said, with the rest as it should be.
    CountOneMore,
    /// Records, forced count and passes of one core more.
    RecordsOfOneMore,
    /// Records, forced count and passes of the head's cores, where they serve.
    RecordsOfHead,
    /// Records, forced count and passes of 16 cores.
    RecordsOfSixteen,
    /// Records alone of 16 cores.
    OnlyRecordsOfSixteen,
    /// The search starts at the head's cores.
    StartsAtHead,
    /// The search starts at two cores.
    StartsAtTwo,
    /// The search ends at the head's cores.
    EndsAtHead,
    /// The head's cores, where they serve.
    HeadIfItServes,
    /// The head's cores are not checked.
    HeadUnchecked,
    /// 14 with place and passes as found with the head's cores.
    FourteenOfHead,
    /// 14 with the passes alone as found with the head's cores.
    PassesOfHead,
    /// 14 with place and passes as found with one core.
    FourteenOfOneCore,
    /// The passes of all tries together.
    PassesOfAllTries,
    /// The passes of all tries together under 14.
    PassesOfAllRefusals,
    /// No passes under 14.
    NoPasses,
    StopsAtEight,
    StopsAtFifteen,
    /// As many cores as are needed.
    GoesOnPastSixteen,
    /// 1, 2, 4, 8 and 16 cores only.
    PowersOfTwo,
    /// The fewest cores with which the table passes as it was sent.
    PassesAsSent,
    /// Each try starts with the tasks that the one before it forced.
    FlagsCarriedOver,
    /// Forcing under the second edition.
    SecondEdition,
    /// 16 as core count under 14.
    CoresInRefusal,
    /// 13 before all others.
    RoomFirst,
    /// 13 after 14.
    RoomLast,
    /// The records of the last test are written under 14.
    WritesInRefusal,
    /// The halves of 1 to 16 are tried.
    Halving,
    /// From 16 cores down, until forcing refuses.
    Downwards,
    /// The search starts at the load rounded up.
    StartsAtLoad,
    /// The search ends at n cores, where these are fewer than 16.
    EndsAtTasks,
}

use Slip::*;

/// Those that the made tables must give away.
pub const WRONG: &[Slip] = &[
    OneCoreTooMany,
    CountOneMore,
    RecordsOfOneMore,
    RecordsOfHead,
    RecordsOfSixteen,
    OnlyRecordsOfSixteen,
    StartsAtHead,
    StartsAtTwo,
    EndsAtHead,
    HeadIfItServes,
    FourteenOfHead,
    PassesOfHead,
    FourteenOfOneCore,
    PassesOfAllTries,
    PassesOfAllRefusals,
    NoPasses,
    StopsAtEight,
    StopsAtFifteen,
    GoesOnPastSixteen,
    PowersOfTwo,
    PassesAsSent,
    FlagsCarriedOver,
    SecondEdition,
    CoresInRefusal,
    RoomLast,
    WritesInRefusal,
];

/// Those that need numbers outside their ranges.
pub const WRONG_OUTSIDE: &[Slip] = &[HeadUnchecked, RoomFirst];

/// Slips that no table gives away: forcing accepts with every larger number of cores as well, with n cores
/// each bound is C, and no table passes with fewer cores than its load.
pub const SAME: &[Slip] = &[Halving, Downwards, StartsAtLoad, EndsAtTasks];

// ---------------------------------------------------------------- one try

fn forced_on(table: &Table, cores: u32) -> Result<Forced, Refusal> {
    force(&on_cores(table, cores), bound_of)
}

fn tried(slip: Slip, table: &Table, cores: u32) -> Result<Forced, Refusal> {
    let here = on_cores(table, cores);
    match slip {
        PassesAsSent => match test(&here, bound_of) {
            (true, records) => Ok(Forced { records, forced: 0, passes: 1 }),
            (false, _) => {
                Err(forced_on(table, cores).err().unwrap_or(Refusal { number: 14, place: 1, passes: 1 }))
            }
        },
        SecondEdition => match edition2::force(&here, edition2::bound_of) {
            Ok(found) => Ok(Forced { records: found.records, forced: found.forced, passes: found.passes }),
            Err(refusal) => Err(Refusal { number: 14, ..refusal }),
        },
        FlagsCarriedOver if cores > 1 => carried_over(table, cores),
        _ => force(&here, bound_of),
    }
}

/// Forcing that starts with the flags at the end of all tries with fewer cores. The marks are those of the
/// table as sent.
fn carried_over(table: &Table, cores: u32) -> Result<Forced, Refusal> {
    let mut changed = table.clone();
    for fewer in 1..cores {
        let flags = last_flags(&on_cores(&changed, fewer));
        changed.tasks.iter_mut().zip(flags).for_each(|(task, flag)| task.flag = flag);
    }
    let mut found = forced_on(&changed, cores)?;
    for (record, task) in found.records.iter_mut().zip(&table.tasks) {
        record.forced = u32::from(record.flag != task.flag);
    }
    found.forced = found.records.iter().map(|record| record.forced).sum();
    Ok(found)
}

/// The flags at the end of forcing, accepted or not.
fn last_flags(table: &Table) -> Vec<u32> {
    let mut flags = table.flags();
    loop {
        let found = bounds(table, &flags, bound_of);
        let failing: Vec<usize> = (0..flags.len()).filter(|&k| flags[k] == 1 && found[k].is_none()).collect();
        if failing.is_empty() {
            return flags;
        }
        failing.into_iter().for_each(|k| flags[k] = 0);
    }
}

// ---------------------------------------------------------------- the search

/// The core numbers that are tried, in order.
fn order(slip: Slip, table: &Table) -> Vec<u32> {
    let (head, n) = (table.cores, table.tasks.len() as u32);
    match slip {
        StartsAtHead => (head..=MOST_CORES).collect(),
        StartsAtTwo => (2..=MOST_CORES).collect(),
        EndsAtHead => (1..=head).collect(),
        HeadIfItServes => std::iter::once(head).chain(1..=MOST_CORES).collect(),
        StopsAtEight => (1..=8).collect(),
        StopsAtFifteen => (1..=15).collect(),
        GoesOnPastSixteen => (1..=32).collect(),
        PowersOfTwo => vec![1, 2, 4, 8, 16],
        StartsAtLoad => (whole_load(table).min(MOST_CORES)..=MOST_CORES).collect(),
        EndsAtTasks => (1..=n.min(MOST_CORES)).collect(),
        Halving => vec![halved(table)],
        Downwards => {
            let refuses = |cores: &u32| forced_on(table, *cores).is_err();
            vec![(1..=MOST_CORES).rev().find(refuses).map_or(1, |last| (last + 1).min(MOST_CORES))]
        }
        _ => (1..=MOST_CORES).collect(),
    }
}

/// The sum of C / T to the next whole number; it is a little less where the parts are cut off.
fn whole_load(table: &Table) -> u32 {
    const PARTS: u64 = 1 << 40;
    let load: u64 = table.tasks.iter().map(|task| task.cost as u64 * PARTS / task.period as u64).sum();
    load.div_ceil(PARTS) as u32
}

fn halved(table: &Table) -> u32 {
    let (mut low, mut high) = (1, MOST_CORES);
    while low < high {
        let middle = (low + high) / 2;
        if forced_on(table, middle).is_ok() {
            high = middle;
        } else {
            low = middle + 1;
        }
    }
    low
}

fn search(slip: Slip, table: &Table) -> Answer {
    let mut passes = 0;
    let mut last = None;
    for cores in order(slip, table) {
        match tried(slip, table, cores) {
            Ok(found) => return accepted(slip, table, cores, found, passes),
            Err(refusal) => {
                passes += refusal.passes;
                last = Some(refusal);
            }
        }
    }
    let mut refusal = last.unwrap();
    let of = |cores: u32| forced_on(table, cores).err().unwrap_or(refusal);
    match slip {
        FourteenOfHead => refusal = of(table.cores),
        PassesOfHead => refusal.passes = of(table.cores).passes,
        FourteenOfOneCore => refusal = of(1),
        PassesOfAllRefusals => refusal.passes = passes,
        NoPasses => refusal.passes = 0,
        _ => {}
    }
    let (mut said, mut written) = answer(Err(refusal));
    if slip == CoresInRefusal {
        said.cores = MOST_CORES;
    }
    if slip == WritesInRefusal {
        written = test(&on_cores(table, MOST_CORES), bound_of).1.iter().map(|record| record.flag).collect();
    }
    (said, written)
}

/// What is said of the try that accepts; `before` is the sum of the passes of those before it.
fn accepted(slip: Slip, table: &Table, cores: u32, found: Forced, before: u32) -> Answer {
    let more = (cores + 1).min(MOST_CORES);
    let of = |cores: u32| forced_on(table, cores).unwrap_or(found.clone());
    let (cores, forcing) = match slip {
        OneCoreTooMany => (more, of(more)),
        CountOneMore => (more, found),
        RecordsOfOneMore => (cores, of(more)),
        RecordsOfHead => (cores, of(table.cores)),
        RecordsOfSixteen => (cores, of(MOST_CORES)),
        OnlyRecordsOfSixteen => (cores, Forced { records: of(MOST_CORES).records, ..found }),
        PassesOfAllTries => (cores, Forced { passes: before + found.passes, ..found }),
        _ => (cores, found),
    };
    answer(Ok(Fewest { cores, forcing }))
}

// ---------------------------------------------------------------- behind the two functions

/// The search with this slip.
pub struct Wrong(pub Slip);

impl Wrong {
    fn said(&self, room: usize, checked: impl Fn(usize) -> Result<Table, Refusal>) -> Answer {
        let looked_at = if self.0 == RoomLast { usize::MAX } else { room };
        match checked(looked_at) {
            Err(refusal) => answer(Err(refusal)),
            Ok(table) => match search(self.0, &table) {
                (said, _) if said.number == 0 && room < table.tasks.len() => answer(refuse(13, 0)),
                (said, written) if written.len() > 3 * room => (said, Vec::new()),
                found => found,
            },
        }
    }
}

impl Searcher for Wrong {
    fn text(&self, text: &[u8], records: &mut [u32]) -> Said {
        deliver(self.said(records.len() / 3, |room| check_text(text, room)), records)
    }

    fn list(&self, head: [u32; 2], tasks: &[u32], records: &mut [u32]) -> Said {
        if self.0 == RoomFirst && records.len() / 3 < tasks.len() / 4 {
            return Said { number: 13, ..Said::default() };
        }
        let cores = if self.0 == HeadUnchecked { 1 } else { head[0] };
        deliver(
            self.said(records.len() / 3, |room| check_list(cores, head[1], &unflat(tasks), room)),
            records,
        )
    }
}
