//! Refusals: what is wrong, where, and what to do.

use core::fmt;

use crate::flat;
use crate::texts;

/// Where a refusal points.
#[derive(Clone, Copy, Debug, PartialEq, Eq)]
pub enum Place {
    /// At no single task or line.
    Nowhere,
    /// A line of the plan: the head is 1, task i is i + 1.
    Line(u32),
    /// A task, counted from 1.
    Task(u32),
}

/// A numbered refusal of documents 01 and 02. The caller's list or buffer is as it was.
#[derive(Clone, Copy, Debug, PartialEq, Eq)]
pub struct Refusal {
    /// Its number, 1 to 18; 14 under the first edition only, 15 under the second.
    pub number: u32,
    /// Its place.
    pub place: Place,
    /// How many tests forcing made before 14 or 15; 0 under every other number.
    pub passes: u32,
}

impl Refusal {
    /// What is wrong, in the words of docs/REFUSALS.md.
    pub fn text(&self) -> &'static str {
        texts::text(self.number)
    }

    /// What to do about it, in the words of docs/REFUSALS.md.
    pub fn advice(&self) -> &'static str {
        texts::advice(self.number)
    }
}

/// A plan is counted in lines while it is read, and in tasks once it is read.
pub(crate) fn of_plan(answer: &[u32; flat::FIELDS]) -> Refusal {
    let line = |place| if answer[flat::NUMBER] <= 12 { Place::Line(place) } else { Place::Task(place) };
    refusal(answer, line)
}

/// A list is counted in tasks.
pub(crate) fn of_tasks(answer: &[u32; flat::FIELDS]) -> Refusal {
    refusal(answer, Place::Task)
}

fn refusal(answer: &[u32; flat::FIELDS], place: impl Fn(u32) -> Place) -> Refusal {
    Refusal {
        number: answer[flat::NUMBER],
        place: if answer[flat::PLACE] == 0 { Place::Nowhere } else { place(answer[flat::PLACE]) },
        passes: answer[flat::PASSES],
    }
}

/// As "refused 9 at line 3 (task 2): The task's period T is not 1 to 1,000,000 quanta."
impl fmt::Display for Refusal {
    fn fmt(&self, out: &mut fmt::Formatter<'_>) -> fmt::Result {
        write!(out, "refused {}", self.number)?;
        match self.place {
            Place::Nowhere => Ok(()),
            Place::Line(1) => write!(out, " at line 1 (the head)"),
            Place::Line(line) if self.number == 12 => write!(out, " at line {line}"),
            Place::Line(line) => write!(out, " at line {line} (task {})", line.saturating_sub(1)),
            Place::Task(task) => write!(out, " at task {task}"),
        }?;
        match self.passes {
            0 => Ok(()),
            1 => write!(out, " after 1 pass"),
            passes => write!(out, " after {passes} passes"),
        }?;
        write!(out, ": {}", self.text())
    }
}

impl core::error::Error for Refusal {}
