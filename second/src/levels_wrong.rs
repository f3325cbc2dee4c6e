//! Wrong planners for tables with levels, each with one slip. The comparison must find every one of them.

use crate::compare_writing;
use crate::edition2::{self, slacks_after, to_be_forced};
use crate::edition2_compare::flat;
use crate::fewest::on_cores;
use crate::forcing::Record;
use crate::levels::{levels_of, unflat, with_levels};
use crate::levels_compare::{deliver, Answer, Job, Leveled, Said};
use crate::levels_slips::Slip::{self, *};
use crate::levels_wrong_checks::{checked, cut, write};
use crate::plan::{Refusal, Table, EDF, MOST_CORES};
use crate::word;

// ---------------------------------------------------------------- bounds with a slip

/// The table with the levels that the slip reads in place of its own. The right rule then does the rest.
fn read_otherwise(slip: Slip, table: &Table, flags: &[u32]) -> Table {
    let (levels, n) = (levels_of(table), table.tasks.len() as u32);
    let ranked = |by: &dyn Fn(usize) -> (u32, u32)| {
        let keys: Vec<_> = (0..levels.len()).map(by).collect();
        keys.iter().map(|key| 1 + keys.iter().filter(|other| *other < key).count() as u32).collect()
    };
    let changed: Vec<u32> = match slip {
        EqualByPlace => ranked(&|i| (levels[i], i as u32)),
        EqualByPlaceReversed => ranked(&|i| (levels[i], n - i as u32)),
        EqualByDeadline => ranked(&|i| (levels[i], table.tasks[i].deadline)),
        PlacesForLevels => (1..=n).collect(),
        GreaterIsHigher => levels.iter().map(|level| 33 - level).collect(),
        LevelsSorted => {
            let mut sorted = levels.clone();
            sorted.sort();
            sorted
        }
        FiveBits => levels.iter().map(|level| level % 32).collect(),
        FourBits => levels.iter().map(|level| level % 16).collect(),
        CutAtN => levels.iter().map(|&level| level.min(n)).collect(),
        Halved => levels.iter().map(|level| level / 2).collect(),
        NonPreemptiveLowest => {
            let other = |i: usize| if flags[i] == 1 { levels[i] } else { 33 };
            (0..levels.len()).map(other).collect()
        }
        ForcedRises => {
            let other = |i: usize| if flags[i] == table.tasks[i].flag { levels[i] } else { 1 };
            (0..levels.len()).map(other).collect()
        }
        _ => levels,
    };
    with_levels(table, &changed)
}

/// The tasks that stand before k and behind it for this slip; one may stand on both sides, or on none.
fn sides(slip: Slip, table: &Table, flags: &[u32], k: usize) -> (Vec<usize>, Vec<usize>) {
    let level = |i: usize| table.tasks[i].level;
    let others: Vec<usize> = (0..table.tasks.len()).filter(|&i| i != k).collect();
    let chosen = |which: &dyn Fn(usize) -> bool| others.iter().copied().filter(|&i| which(i)).collect();
    match slip {
        HigherThanItself => {
            let all = (0..table.tasks.len()).filter(|&i| level(i) <= level(k));
            (all.collect(), chosen(&|i| level(i) > level(k)))
        }
        StrictlySmaller => (chosen(&|i| level(i) < level(k)), chosen(&|i| level(i) >= level(k))),
        EqualIsNeither => (chosen(&|i| level(i) < level(k)), chosen(&|i| level(i) > level(k))),
        EqualIsBoth => (chosen(&|i| level(i) <= level(k)), chosen(&|i| level(i) >= level(k))),
        PlacesForPreemptive if flags[k] == 1 => (chosen(&|i| i < k), chosen(&|i| i > k)),
        PlacesForNonPreemptive if flags[k] == 0 => (chosen(&|i| i < k), chosen(&|i| i > k)),
        EdfLowerLeftOut if table.policy == EDF => {
            (chosen(&|i| level(i) <= level(k) || flags[i] == 0), Vec::new())
        }
        _ => (chosen(&|i| level(i) <= level(k)), chosen(&|i| level(i) > level(k))),
    }
}

/// The bound of task k: the right one of the table in which these stand before and behind it.
fn bound_of(slip: Slip, table: &Table, flags: &[u32], slacks: &[u32], k: usize) -> Option<u32> {
    let table = read_otherwise(slip, table, flags);
    let (before, behind) = sides(slip, &table, flags, k);
    let order: Vec<usize> = before.iter().chain(&[k]).chain(&behind).copied().collect();
    let pick = |list: &[u32]| order.iter().map(|&i| list[i]).collect::<Vec<u32>>();
    let tasks: Vec<_> = order.iter().map(|&i| table.tasks[i]).collect();
    let here = Table::in_places(table.cores, table.policy, &tasks);
    edition2::bound_of(&here, &pick(flags), &pick(slacks), before.len())
}

// ---------------------------------------------------------------- test and forcing with a slip

type Bounds = Vec<Option<u32>>;

/// The bounds of a test, and its rounds; 0 of them under edition 1.
fn tested(slip: Slip, table: &Table, flags: &[u32], edition: u32) -> (Bounds, u32) {
    let n = table.tasks.len();
    let mut slacks = vec![0; n];
    for rounds in 1.. {
        let bounds: Bounds = (0..n).map(|k| bound_of(slip, table, flags, &slacks, k)).collect();
        let next = slacks_after(table, &slacks, &bounds);
        if edition == 1 {
            return (bounds, 0);
        }
        if next == slacks {
            return (bounds, rounds);
        }
        slacks = next;
    }
    unreachable!()
}

/// Whether the bound of task k is kept from the test before, these tasks having been forced after it.
fn kept(slip: Slip, table: &Table, flags: &[u32], forced: &[usize], k: usize) -> bool {
    let level = |i: usize| table.tasks[i].level;
    let levels = || forced.iter().map(|&i| level(i));
    if forced.is_empty() || flags[k] == 0 {
        return false;
    }
    let (last, highest) = (*forced.iter().max().unwrap(), levels().min().unwrap());
    let lowest = levels().max().unwrap();
    match slip {
        KeptByPlace => table.policy != EDF && k > last,
        KeptByHighestLevel => table.policy != EDF && level(k) >= highest,
        KeptOneLevelMore => table.policy != EDF && level(k) + 1 >= lowest,
        KeptUnderEdf => level(k) >= lowest,
        KeptAsItMayBe => table.policy != EDF && level(k) >= lowest,
        _ => false,
    }
}

/// Flags, bounds, passes and rounds at the end of forcing; or its refusal.
fn forced(slip: Slip, table: &Table, edition: u32) -> Result<(Vec<u32>, Bounds, u32, u32), Refusal> {
    let mut flags = table.flags();
    let (mut before, mut last): (Bounds, Vec<usize>) = (Vec::new(), Vec::new());
    for passes in 1.. {
        let (mut bounds, rounds) = tested(slip, table, &flags, edition);
        for k in (0..flags.len()).filter(|_| edition == 1) {
            if kept(slip, table, &flags, &last, k) {
                bounds[k] = before[k];
            }
        }
        let failing: Vec<usize> =
            (0..flags.len()).filter(|&k| flags[k] == 1 && bounds[k].is_none()).collect();
        let next = match (edition, bounds.iter().position(|bound| bound.is_none())) {
            (_, None) => return Ok((flags, bounds, passes, rounds)),
            (1, Some(_)) => failing,
            (_, Some(_)) => to_be_forced(&flags, &bounds),
        };
        if next.is_empty() {
            let k = bounds.iter().position(|bound| bound.is_none()).unwrap();
            return Err(Refusal { number: 13 + edition, place: k as u32 + 1, passes });
        }
        next.iter().for_each(|&k| flags[k] = 0);
        (before, last) = (bounds, next);
    }
    unreachable!()
}

fn records(table: &Table, flags: &[u32], bounds: &[Option<u32>]) -> Vec<Record> {
    let forced = |k: usize| u32::from(flags[k] != table.tasks[k].flag);
    let record = |k: usize| Record { flag: flags[k], forced: forced(k), bound: bounds[k].unwrap_or(0) };
    (0..flags.len()).map(record).collect()
}

fn force(slip: Slip, table: &Table, edition: u32) -> Answer {
    match forced(slip, table, edition) {
        Err(Refusal { number, place, passes }) => {
            (Said { number, place, passes, ..Said::default() }, Vec::new())
        }
        Ok((flags, bounds, passes, rounds)) => {
            let records = records(table, &flags, &bounds);
            let (forced, word) = (records.iter().map(|record| record.forced).sum(), word::due(&records));
            (Said { yes: true, forced, passes, rounds, word, ..Said::default() }, flat(&records))
        }
    }
}

/// The number of cores that forcing accepts with first, or the refusal at 16 cores.
fn fewest(slip: Slip, table: &Table) -> Answer {
    let cores = (1..MOST_CORES).find(|&cores| forced(slip, &on_cores(table, cores), 1).is_ok());
    let cores = cores.unwrap_or(MOST_CORES);
    let told = if slip == FewestRecordsInPlaces { PlacesForLevels } else { slip };
    let (mut said, records) = match force(told, &on_cores(table, cores), 1) {
        (said, _) if said.number != 0 && slip == FewestRecordsInPlaces => (said, Vec::new()),
        answer => answer,
    };
    said.cores = if said.number == 0 { cores } else { 0 };
    (said, records)
}

/// The table in the order of its levels: the places that are told are then other ones.
fn in_order(table: &Table) -> Table {
    let mut other = table.clone();
    other.tasks.sort_by_key(|task| task.level);
    other
}

fn answer(slip: Slip, job: Job, table: &Table) -> Answer {
    let here = match (slip, job) {
        (TestInPlaces, Job::Test)
        | (ForceInPlaces, Job::Force)
        | (Test2InPlaces, Job::Test2)
        | (Force2InPlaces, Job::Force2)
        | (FewestInPlaces, Job::Fewest) => Table::in_places(table.cores, table.policy, &table.tasks),
        (EdfOrderOfLevels, _) if table.policy == EDF => in_order(table),
        _ => table.clone(),
    };
    let edition = if matches!(job, Job::Test2 | Job::Force2) { 2 } else { 1 };
    match job {
        Job::Force | Job::Force2 => force(slip, &here, edition),
        Job::Fewest => fewest(slip, &here),
        Job::Test | Job::Test2 => {
            let flags = here.flags();
            let (bounds, rounds) = tested(slip, &here, &flags, edition);
            let (records, yes) = (records(&here, &flags, &bounds), !bounds.contains(&None));
            (Said { yes, rounds, word: word::due(&records), ..Said::default() }, flat(&records))
        }
    }
}

// ---------------------------------------------------------------- behind the two functions

/// The planner with this slip.
pub struct Wrong(pub Slip);

impl Leveled for Wrong {
    fn call(&self, job: Job, head: [u32; 2], tasks: &[u32], records: &mut [u32]) -> Said {
        let tasks = unflat(&cut(self.0, tasks));
        match checked(self.0, head, &tasks, records.len() / 3) {
            Ok(table) => deliver(answer(self.0, job, &table), records),
            Err(refusal) => Said { number: refusal.number, place: refusal.place, ..Said::default() },
        }
    }

    fn write(&self, head: [u32; 2], tasks: &[u32], buffer: &mut [u8], start: usize) -> compare_writing::Said {
        write(self.0, head, tasks, buffer, start)
    }
}
