//! Wrong readers, each with one slip; the reading cases must give each of them away.

use crate::plan::{refuse, Refusal, Table, Task, LONGEST_PLAN};

pub use crate::reading_slips::{Slip, SLIPS};

// ---------------------------------------------------------------- digits with a slip

fn digit(slip: Slip, byte: u8) -> Option<u8> {
    let byte = match slip {
        Slip::FoldedByOr => byte | 0x20,
        Slip::FoldedBySeven => byte & 0x7F,
        _ => byte,
    };
    match byte {
        b'0'..=b'9' => Some(byte - b'0'),
        b'A'..=b'F' => Some(byte - b'A' + 10),
        b'a'..=b'f' => lower_digit(slip, byte),
        b':'..=b'@' if slip == Slip::NeighbourDigitsRead => Some(byte - b'0'),
        b'g' if slip == Slip::LowerGRead => Some(16),
        b'G' if slip == Slip::UpperGRead => Some(16),
        b'`' if slip == Slip::BackquoteRead => Some(9),
        _ => None,
    }
}

fn lower_digit(slip: Slip, byte: u8) -> Option<u8> {
    match (slip, byte) {
        (Slip::UpperCaseOnly, _) | (Slip::LowerALeftOut, b'a') | (Slip::LowerFLeftOut, b'f') => None,
        (Slip::LowerAIsEleven, b'a') => Some(11),
        (Slip::LowerWithoutTen, _) => Some(byte - b'a' + 1),
        _ => Some(byte - b'a' + 10),
    }
}

/// The letters that a text has in a case: lower, upper.
fn has_cases(text: &[u8]) -> [bool; 2] {
    [text.iter().any(u8::is_ascii_lowercase), text.iter().any(u8::is_ascii_uppercase)]
}

/// Whether the slip refuses the cases of these digits of a line; `before` holds the lines before it.
fn wrong_case(slip: Slip, before: &[u8], digits: &[u8], line: u32) -> bool {
    let size = digits.len();
    let lower = |at: usize| digits[at].is_ascii_lowercase();
    match slip {
        Slip::LowerFirstDigitOnly => (1..size).step_by(2).any(lower),
        Slip::LowerSecondDigitOnly => (0..size).step_by(2).any(lower),
        Slip::LowerHeadOnly => line > 1 && (0..size).any(lower),
        Slip::LowerTasksOnly => line == 1 && (0..size).any(lower),
        Slip::LowerKindRefused => (0..2).any(lower),
        Slip::LowerCheckRefused => (size - 2..size).any(lower),
        Slip::LowerFieldsRefused => (2..size - 2).any(lower),
        Slip::MixedByteRefused => digits.chunks(2).any(|pair| has_cases(pair) == [true, true]),
        Slip::MixedLineRefused => has_cases(digits) == [true, true],
        Slip::MixedPlanRefused => has_cases(&[before, digits].concat()) == [true, true],
        _ => false,
    }
}

// ---------------------------------------------------------------- lines with a slip

/// One line off the text, with 1, 2, 3, 4 except for the slip. `all` is the whole text.
fn frame(slip: Slip, all: &[u8], left: &mut &[u8], due: (usize, u8, u32)) -> Result<Vec<u8>, Refusal> {
    let (size, kind, line) = due;
    let digits = 2 * size;
    let end_missing = slip == Slip::LastLineEndOptional && left.len() == digits;
    if left.len() < digits + 1 && !end_missing {
        return refuse(if slip == Slip::ShortLineIsTwo && !left.is_empty() { 2 } else { 1 }, line);
    }
    if wrong_case(slip, &all[..all.len() - left.len()], &left[..digits], line) {
        return refuse(2, line);
    }
    let mut bytes = Vec::new();
    for pair in left[..digits].chunks(2) {
        match (digit(slip, pair[0]), digit(slip, pair[1])) {
            (Some(high), Some(low)) => bytes.push(high.wrapping_mul(16).wrapping_add(low)),
            _ => return refuse(2, line),
        }
    }
    let mut used = digits;
    if slip == Slip::CarriageReturnRead && left[digits..].starts_with(b"\r\n") {
        used += 1;
    }
    if !end_missing && !is_end(slip, left[used]) {
        return refuse(2, line);
    }
    check_frame(slip, &bytes, kind, line)?;
    *left = &left[(used + 1).min(left.len())..];
    Ok(bytes)
}

/// Whether the byte after the digits ends the line.
fn is_end(slip: Slip, byte: u8) -> bool {
    let folded = slip == Slip::LineEndFolded && byte | 0x20 == 0x0A | 0x20;
    byte == 0x0A || folded || slip == Slip::LineEndUnchecked
}

/// 3 and 4.
fn check_frame(slip: Slip, bytes: &[u8], kind: u8, line: u32) -> Result<(), Refusal> {
    let counted = if slip == Slip::SumWithoutCheck { &bytes[..bytes.len() - 1] } else { bytes };
    let sum = counted.iter().fold(0u8, |sum, &byte| sum.wrapping_add(byte));
    let wrong_sum = sum != 0 && slip != Slip::SumUnchecked;
    let wrong_kind = bytes[0] != kind && slip != Slip::KindUnchecked;
    if slip == Slip::KindBeforeSum && wrong_kind {
        return refuse(4, line);
    }
    if wrong_sum {
        return refuse(3, line);
    }
    if slip == Slip::HeadFieldsBeforeKind && wrong_kind && line == 1 {
        check_head(slip, bytes, line)?;
    }
    if wrong_kind {
        return refuse(4, line);
    }
    Ok(())
}

fn check_head(slip: Slip, head: &[u8], line: u32) -> Result<(), Refusal> {
    let (low, high) = match slip {
        Slip::ZeroCoresRead => (0, 16),
        Slip::SixteenCoresRefused => (1, 15),
        Slip::SeventeenCoresRead => (1, 17),
        _ => (1, 16),
    };
    let policy = head[2] > if slip == Slip::PolicyTwoRead { 2 } else { 1 };
    if slip == Slip::PolicyBeforeCores && policy {
        return refuse(6, line);
    }
    if head[1] < low || head[1] > high {
        return refuse(5, line);
    }
    if policy {
        return refuse(6, line);
    }
    let least = u8::from(slip != Slip::NoTasksRead);
    let most = if slip == Slip::TasksThirtyTwoRefused { 31 } else { 32 };
    if head[3] < least || head[3] > most {
        return refuse(7, line);
    }
    Ok(())
}

fn task_of(slip: Slip, bytes: &[u8]) -> Task {
    let number = |at: usize| {
        let four = [bytes[at], bytes[at + 1], bytes[at + 2], bytes[at + 3]];
        if slip == Slip::LowestByteFirst {
            u32::from_le_bytes(four)
        } else {
            u32::from_be_bytes(four)
        }
    };
    let (cost, deadline) = if slip == Slip::CostAndDeadlineSwapped { (10, 6) } else { (6, 10) };
    Task::of_four(bytes[1] as u32, number(2), number(cost), number(deadline))
}

fn check_task(slip: Slip, task: &Task, line: u32) -> Result<(), Refusal> {
    let Task { flag, period, cost, deadline, .. } = *task;
    let flag_wrong = flag > if slip == Slip::FlagTwoRead { 2 } else { 1 };
    let longest = match slip {
        Slip::PeriodMillionRefused => 999_999,
        Slip::PeriodToPowerOfTwo => 1 << 20,
        _ => 1_000_000,
    };
    let period_wrong = (period < 1 && slip != Slip::PeriodZeroRead) || period > longest;
    let latest = match slip {
        Slip::DeadlineToLongest => 1_000_000,
        Slip::DeadlineBelowPeriod => period.saturating_sub(1),
        _ => period,
    };
    let deadline_wrong = deadline < 1 || deadline > latest;
    let most = match slip {
        Slip::CostToPeriod => period,
        Slip::CostBelowDeadline => deadline.saturating_sub(1),
        _ => deadline,
    };
    let cost_wrong = (cost < 1 && slip != Slip::CostZeroRead) || cost > most;
    let found = [(flag_wrong, 8), (period_wrong, 9), (deadline_wrong, 10), (cost_wrong, 11)];
    let order = match slip {
        Slip::CostBeforeDeadline => [0, 1, 3, 2],
        Slip::FlagLast => [1, 2, 3, 0],
        _ => [0, 1, 2, 3],
    };
    match order.iter().find(|&&at| found[at].0) {
        Some(&at) => refuse(found[at].1, line),
        None => Ok(()),
    }
}

/// What is looked at before any line.
fn beforehand(slip: Slip, text: &[u8]) -> Result<(), Refusal> {
    if slip == Slip::LongTextFirst && text.len() > LONGEST_PLAN {
        return refuse(12, 34);
    }
    if slip == Slip::DigitsFirst {
        for (at, line) in text.split(|&byte| byte == b'\n').enumerate() {
            if line.iter().any(|&byte| digit(slip, byte).is_none()) {
                return refuse(2, at as u32 + 1);
            }
        }
    }
    Ok(())
}

/// What is looked at between the head and the tasks.
fn between(slip: Slip, left: &[u8], n: usize) -> Result<(), Refusal> {
    if slip == Slip::LengthFirst && left.len() < 31 * n {
        return refuse(1, 2 + (left.len() / 31) as u32);
    }
    if slip == Slip::RestFirst && left.len() > 31 * n {
        return refuse(12, n as u32 + 2);
    }
    Ok(())
}

/// Reads a plan with one slip.
pub fn read(slip: Slip, text: &[u8]) -> Result<Table, Refusal> {
    let result = read_lines(slip, text);
    match (slip, result) {
        (Slip::PlaceFromZero, Err(refusal)) => refuse(refusal.number, refusal.place - 1),
        (Slip::PlaceOfTask, Err(refusal)) if (8..12).contains(&refusal.number) => {
            refuse(refusal.number, refusal.place - 1)
        }
        (_, result) => result,
    }
}

fn read_lines(slip: Slip, text: &[u8]) -> Result<Table, Refusal> {
    beforehand(slip, text)?;
    let text = if slip == Slip::RaisedCopyCut { &text[..text.len().min(LONGEST_PLAN)] } else { text };
    let mut left = text;
    let head = frame(slip, text, &mut left, (5, 1, 1))?;
    check_head(slip, &head, 1)?;
    let n = head[3] as usize;
    between(slip, left, n)?;
    let tasks = read_tasks(slip, text, &mut left, n)?;
    if !left.is_empty() && slip != Slip::RestIgnored {
        let place = n as u32 + if slip == Slip::RestPlaceOneLess { 1 } else { 2 };
        return refuse(12, place);
    }
    Ok(Table::in_places(head[1] as u32, head[2] as u32, &tasks))
}

fn read_tasks(slip: Slip, all: &[u8], left: &mut &[u8], n: usize) -> Result<Vec<Task>, Refusal> {
    let mut tasks = Vec::new();
    let mut fault = Ok(());
    for line in 2..n as u32 + 2 {
        let bytes = frame(slip, all, left, (15, 2, line))?;
        let task = task_of(slip, &bytes);
        let found = check_task(slip, &task, line);
        match slip {
            // The fields are judged when all frames have been, or the last fault is kept.
            Slip::FieldsLast => fault = fault.and(found),
            Slip::LastFault if found.is_err() => fault = found,
            Slip::LastFault => {}
            _ => found?,
        }
        tasks.push(task);
    }
    fault?;
    Ok(tasks)
}
