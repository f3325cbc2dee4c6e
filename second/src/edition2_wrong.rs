//! Wrong versions of the second edition, each with one slip. The comparison must find every one of them.

use crate::compare::TEST;
use crate::edition2::{self, slacks_after, to_be_forced};
use crate::edition2_compare::{self, flat, refused, Answer, Answering, Planner, Said};
use crate::edition2_slips::Slip::{self, *};
use crate::forcing::Record;
use crate::plan::{Refusal, Table, EDF};
use crate::word;

// ---------------------------------------------------------------- bounds with a slip

/// The whole sum of task k at length l under these slacks.
fn sum(slip: Slip, table: &Table, flags: &[u32], slacks: &[u32], k: usize, l: i64) -> i64 {
    let (this, edf, k_preemptive) = (&table.tasks[k], table.policy == EDF, flags[k] == 1);
    let q = if k_preemptive { l - this.cost as i64 + 1 } else { l };
    let (mut total, mut candidates) = (0, Vec::new());
    for (i, task) in table.tasks.iter().enumerate().filter(|&(i, _)| i != k) {
        let (t, c, d, s) = (task.period as i64, task.cost as i64, task.deadline as i64, slacks[i] as i64);
        let i_preemptive = flags[i] == 1;
        let (whole, part) = match slip {
            SlackInCapOnly => (0, 0),
            SlackInWholeJobsOnly => (s, 0),
            SlackInPartOfAJobOnly => (0, s),
            _ => (s, s),
        };
        let n = (l + d - whole - c).max(0) / t;
        let w = 0.max(n * c + c.min(l + d - part - c - n * t));
        let d_k = this.deadline as i64;
        let e = match slip {
            SlackInWorkOnly => d_k / t * c + c.min(d_k % t),
            OwnSlackInCap => d_k / t * c + c.min(0.max(d_k % t - slacks[k] as i64)),
            CapOfShorterDeadline => 0.max(d_k - s) / t * c + c.min(0.max(d_k - s) % t),
            CapBelowNought => 0.max(d_k / t * c + c.min(d_k % t - s)),
            _ => d_k / t * c + c.min(0.max(d_k % t - s)),
        };
        let capped = edf && (i_preemptive || !k_preemptive);
        let lower = task.level > this.level;
        let adds = edf || !lower || (k_preemptive && !i_preemptive);
        let term = if !adds { 0 } else { if capped { w.min(e) } else { w }.min(q) };
        total += term;
        let later = match slip {
            DifferencesOfAll if edf => true,
            DifferencesOfTies if edf => task.deadline >= this.deadline,
            _ if edf => task.deadline > this.deadline,
            _ => lower,
        };
        let may_block = !i_preemptive || (edf && slip == DifferencesOfPreemptive);
        if !k_preemptive && may_block && later {
            let all = if edf && slip == DifferencesOfWholeCost { c } else { c - 1 };
            let full = d_k / t * c + c.min(d_k % t);
            candidates.push(match slip {
                DifferencesLeftOut if edf => 0,
                DifferencesNotLessened if edf => w.min(all).min(l),
                DifferencesWithoutSlack if edf => 0.max(w.min(all).min(l) - w.min(full).min(l)),
                _ => 0.max(w.min(all).min(l) - term),
            });
        }
    }
    candidates.sort();
    let taken = match slip {
        AllDifferences if edf => candidates.len(),
        OneDifference if edf => 1,
        _ => table.cores as usize,
    };
    total + candidates.iter().rev().take(taken).sum::<i64>()
}

/// The bound of task k: the right one where the slip lies elsewhere.
fn bound_of(slip: Slip, table: &Table, flags: &[u32], slacks: &[u32], k: usize) -> Option<u32> {
    if slip == Right || slip as u32 >= UsedAtOnce as u32 {
        return edition2::bound_of(table, flags, slacks, k);
    }
    let (c, d, m) = (table.tasks[k].cost as i64, table.tasks[k].deadline as i64, table.cores as i64);
    let (first, last, more) = if flags[k] == 1 { (c, d, 0) } else { (1, d - c + 1, c - 1) };
    let fits = |l: &i64| first + sum(slip, table, flags, slacks, k, *l) / m <= *l;
    (first..=last).find(fits).map(|l| (l + more) as u32)
}

// ---------------------------------------------------------------- rounds with a slip

/// Slacks at the end, bounds, rounds. The slacks at the start are 0 except where they are carried over.
fn tested(slip: Slip, table: &Table, flags: &[u32], start: &[u32]) -> (Vec<u32>, Vec<Option<u32>>, u32) {
    let n = table.tasks.len();
    let mut slacks = if slip == CarriedOver { start.to_vec() } else { vec![0; n] };
    let mut before = vec![None; n];
    let most = match slip {
        TwoRounds => 2,
        HundredRounds => 100,
        TenThousandRounds => 10_000,
        CarriedOver | AllSlackWithoutBound | LostWithAnyoneWithoutBound => 300,
        _ => u32::MAX,
    };
    // Where slacks may go up and down the rounds are cut off.
    for rounds in 1.. {
        let mut bounds = Vec::new();
        let mut used = slacks.clone();
        for k in 0..n {
            bounds.push(bound_of(slip, table, flags, &used, k));
            if slip == UsedAtOnce {
                used[k] = bounds[k].map_or(used[k], |bound| table.tasks[k].deadline - bound);
            }
            if slip == BestBoundKept {
                bounds[k] = bounds[k].into_iter().chain(before[k]).min();
            }
        }
        let mut next = slacks_after(table, &slacks, &bounds);
        for k in (0..n).filter(|&k| bounds[k].is_none()) {
            match slip {
                LostWithoutBound => next[k] = 0,
                AllSlackWithoutBound => next[k] = table.tasks[k].deadline,
                LostWithAnyoneWithoutBound => next = slacks.clone(),
                _ => (),
            }
        }
        let ends = match slip {
            UntilBoundsStay => bounds == before,
            UntilItPasses => next == slacks || bounds.iter().all(|bound| bound.is_some()),
            _ => next == slacks,
        };
        if ends || rounds == most {
            return match slip {
                OneRoundShort if rounds > 1 => (next, before, rounds),
                LastRoundUncounted => (next, bounds, rounds - 1),
                _ => (next, bounds, rounds),
            };
        }
        (slacks, before) = (next, bounds);
    }
    unreachable!()
}

// ---------------------------------------------------------------- forcing with a slip

/// The tasks to be forced when a test fails; none where forcing ends.
fn next_forced(slip: Slip, flags: &[u32], bounds: &[Option<u32>]) -> Vec<usize> {
    let right = to_be_forced(flags, bounds);
    let preemptive: Vec<usize> = (0..flags.len()).filter(|&k| flags[k] == 1).collect();
    let with_bound = right.iter().any(|&k| bounds[k].is_some());
    match slip {
        HighestForced if with_bound => preemptive.into_iter().rev().take(1).collect(),
        AllForcedAtOnce if with_bound => preemptive,
        NoneForcedWithBound if with_bound => Vec::new(),
        LowestForcedToo => right.into_iter().chain(preemptive.into_iter().take(1)).collect(),
        OneForcedAtATime => right.into_iter().take(1).collect(),
        EndsAtNonPreemptive if (0..flags.len()).any(|k| flags[k] == 0 && bounds[k].is_none()) => Vec::new(),
        _ => right,
    }
}

fn force(slip: Slip, table: &Table) -> Answer {
    let (mut flags, mut slacks) = (table.flags(), vec![0; table.tasks.len()]);
    let mut counts = Vec::new();
    loop {
        let (end, bounds, rounds) = tested(slip, table, &flags, &slacks);
        slacks = end;
        counts.push(rounds);
        let passes = counts.len() as u32;
        if bounds.iter().all(|bound| bound.is_some()) {
            let records = records(table, &flags, &bounds);
            let forced = records.iter().map(|record| record.forced).sum();
            let rounds = match slip {
                RoundsOfAllTests => counts.iter().sum(),
                RoundsOfFirstTest => counts[0],
                _ => rounds,
            };
            let word = word::due(&records);
            return (Said { yes: true, forced, passes, rounds, word, ..Said::default() }, flat(&records));
        }
        let next = next_forced(slip, &flags, &bounds);
        if next.is_empty() {
            let mut without = (0..flags.len()).filter(|&k| bounds[k].is_none());
            let k = if slip == HighestPlace { without.next_back() } else { without.next() };
            let number = if slip == FourteenForFifteen { 14 } else { 15 };
            let (mut said, none) = refused(Refusal { number, place: k.unwrap() as u32 + 1, passes });
            said.rounds = if slip == RoundsInRefusal { rounds } else { 0 };
            return (said, none);
        }
        next.into_iter().for_each(|k| flags[k] = 0);
    }
}

fn records(table: &Table, flags: &[u32], bounds: &[Option<u32>]) -> Vec<Record> {
    let forced = |k: usize| u32::from(flags[k] != table.tasks[k].flag);
    let record = |k: usize| Record { flag: flags[k], forced: forced(k), bound: bounds[k].unwrap_or(0) };
    (0..flags.len()).map(record).collect()
}

/// The planner with this slip under edition 2.
pub fn planner(slip: Slip) -> impl Planner {
    Answering(move |job: u32, edition: u32, checked: Result<Table, Refusal>| match checked {
        Ok(table) if edition == 2 && slip != FirstEdition => answer(slip, job, &table),
        checked => edition2_compare::answer(job, if slip == FirstEdition { 1 } else { edition }, checked),
    })
}

fn answer(slip: Slip, job: u32, table: &Table) -> Answer {
    if job != TEST {
        return force(slip, table);
    }
    let flags = table.flags();
    let (_, bounds, rounds) = tested(slip, table, &flags, &vec![0; flags.len()]);
    let yes = bounds.iter().all(|bound| bound.is_some());
    let rounds = if slip == RoundsOfYesOnly && !yes { 0 } else { rounds };
    let records = records(table, &flags, &bounds);
    (Said { yes, rounds, word: word::due(&records), ..Said::default() }, flat(&records))
}
