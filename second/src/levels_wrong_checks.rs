//! What the wrong planners of `levels_wrong` check: lists that are cut off, refusals 17 and 18.

use crate::compare_writing::Said;
use crate::levels::{levels_of, unflat};
use crate::levels_slips::Slip::{self, *};
use crate::plan::{check_list, in_places, refuse, write as text_of, Refusal, Table, Task, FP};
use crate::writing::write_at;

/// The numbers of a list as the slip counts them.
pub fn cut(slip: Slip, numbers: &[u32]) -> Vec<u32> {
    let whole = numbers.len() / 5;
    match slip {
        CutTaskLeftOut => numbers[..5 * whole].to_vec(),
        CutLevelIsPlace if numbers.len() % 5 == 4 => [numbers, &[whole as u32 + 1]].concat(),
        _ => numbers.to_vec(),
    }
}

/// The level that the slip takes for this one.
fn taken(slip: Slip, level: u32, place: u32) -> u32 {
    match slip {
        ZeroIsPlace if level == 0 => place,
        LowestByte => level % 256,
        _ => level,
    }
}

fn is_wrong(slip: Slip, policy: u32, tasks: &[Task], at: usize) -> bool {
    let level = tasks[at].level;
    let least = u32::from(slip != ZeroTaken);
    let most = match slip {
        ThirtyThreeTaken => 33,
        ThirtyTwoRefused => 31,
        PastNRefused => tasks.len() as u32,
        _ => 32,
    };
    let shared = slip == SharedRefused && tasks[..at].iter().any(|task| task.level == level);
    let judged = match slip {
        FpOnly17 => policy == FP,
        OnlyFirstJudged => at == 0,
        _ => true,
    };
    judged && (level < least || level > most || shared)
}

/// 5 to 11, 17 and 13 as the slip has them.
pub fn checked(slip: Slip, head: [u32; 2], tasks: &[Task], room: usize) -> Result<Table, Refusal> {
    let [cores, policy] = head;
    let level = |(place, task): (u32, &Task)| taken(slip, task.level, place);
    let tasks: Vec<Task> = (1..).zip(tasks).map(|two| Task { level: level(two), ..*two.1 }).collect();
    let plain: Vec<Task> = tasks.iter().map(|task| Task { level: 1, ..*task }).collect();
    let others = check_list(cores, policy, &plain, usize::MAX);
    let full = if room < tasks.len() { refuse(13, 0) } else { Ok(()) };
    let first = (0..tasks.len()).find(|&at| is_wrong(slip, policy, &tasks, at));
    let seventeen = |at: usize| {
        let place = match slip {
            PlaceZero => 0,
            PlaceIsLevel => tasks[at].level,
            _ => at as u32 + 1,
        };
        refuse(17, place)
    };
    match (others, first) {
        (Err(refusal), Some(at)) if refusal.number > 7 => {
            let (same, earlier) = (refusal.place == at as u32 + 1, refusal.place > at as u32 + 1);
            match slip {
                Before11 if same && refusal.number == 11 => seventeen(at),
                Before8 if same => seventeen(at),
                AfterAllTasks | After13 => Err(refusal),
                _ if earlier => seventeen(at),
                _ => Err(refusal),
            }
        }
        (Err(refusal), _) => Err(refusal),
        (Ok(_), Some(at)) => {
            if slip == After13 {
                full?;
            }
            seventeen(at)
        }
        (Ok(table), None) => {
            full?;
            Ok(Table { tasks, ..table })
        }
    }
}

/// Whether the slip takes these levels for those of the old lines.
fn fits_old_lines(slip: Slip, table: &Table) -> bool {
    let levels = levels_of(table);
    let due: Vec<u32> = (1..=levels.len() as u32).collect();
    let mut sorted = levels.clone();
    sorted.sort();
    match slip {
        Never18 => true,
        EighteenFpOnly => table.policy != FP || levels == due,
        RisingWritten => levels.windows(2).all(|two| two[0] < two[1]),
        NeverFallingWritten => levels.windows(2).all(|two| two[0] <= two[1]),
        AnyOrderWritten => sorted == due,
        FirstNotLookedAt => levels[1..] == due[1..],
        LastNotLookedAt => levels[..levels.len() - 1] == due[..due.len() - 1],
        _ => levels == due,
    }
}

/// Writing with a slip.
pub fn write(slip: Slip, head: [u32; 2], numbers: &[u32], buffer: &mut [u8], start: usize) -> Said {
    let tasks = unflat(&cut(slip, numbers));
    let told = |refusal: Refusal| (refusal.number, refusal.place, refusal.passes);
    let table = match checked(slip, head, &tasks, usize::MAX) {
        Ok(table) => table,
        Err(Refusal { number: 17, .. }) if slip == Eighteen17 => return Err((18, 0, 0)),
        Err(refusal) => return Err(told(refusal)),
    };
    let fits = fits_old_lines(slip, &table);
    let first = (1..).zip(&table.tasks).find(|(due, task)| task.level != *due);
    let place = first.filter(|_| slip == EighteenAtTask).map_or(0, |(due, _)| due);
    if !fits && slip == Eighteen16 {
        return Err((18, place, 0));
    }
    let before = buffer.to_vec();
    let said = write_at(head[0], head[1], &in_places(&tasks), buffer, start).map_err(told);
    if said.is_ok() && !fits {
        buffer.copy_from_slice(&before);
        if slip == HeadWritten {
            buffer[start..start + 11].copy_from_slice(&text_of(&table)[..11]);
        }
        return Err((18, place, 0));
    }
    said
}
