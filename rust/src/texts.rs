//! The words of docs/REFUSALS.md, written here by `python3 checks/border.py --write`.

const NONE: &str = "There is no such refusal.";

/// What is wrong.
pub(crate) const fn text(number: u32) -> &'static str {
    match number {
        // texts: begin
        1 => "Fewer bytes are left than the due line and its line end need, or the last line end is missing.",
        2 => {
            "A byte is no digit 0-9, A-F or a-f where one is due, or the byte after the line's digits is \
             not 0A."
        }
        3 => "The bytes of the line, its check byte included, do not sum to 0 modulo 256.",
        4 => "The line's first byte is not the kind that is due: 01 for the head, 02 for a task.",
        5 => "The number of cores is not 1 to 16.",
        6 => "The policy is neither 0 (EDF) nor 1 (FP).",
        7 => "The number of tasks is not 1 to 32.",
        8 => "The flag is neither 0 (non-preemptive) nor 1 (preemptive).",
        9 => "The period T is not 1 to 1,000,000 quanta.",
        10 => "The deadline D is not 1 to T.",
        11 => "The execution time C is not 1 to D.",
        12 => "Bytes follow the last line.",
        13 => "The caller's list has fewer records than the table has tasks.",
        14 => {
            "Forcing has ended, and the task still has no bound. No choice of further non-preemptive tasks \
             passes the test."
        }
        15 => {
            "Forcing under the second edition has ended, all tasks are non-preemptive, and the task has no \
             bound. Another choice of non-preemptive tasks may pass."
        }
        16 => {
            "The buffer has too little room for the plan from the start place on, or the start place lies \
             past its end."
        }
        17 => "The level is not 1 to 32.",
        18 => "The levels are not 1, 2 and so on in table order, and plan lines carry no others.",
        // texts: end
        _ => NONE,
    }
}

/// What to do.
pub(crate) const fn advice(number: u32) -> &'static str {
    match number {
        // advice: begin
        1 => {
            "Send the whole file again; end the last line with one byte 0A; compare the head's count with \
             the task lines."
        }
        2 => "Write digits 0-9 and A-F, in either case, two to a byte, and end each line with one byte 0A.",
        3 => {
            "Send the line again, or work its check byte out anew: plan says on standard error which one \
             fits."
        }
        4 => "Put the head first, and then only task lines.",
        5 => "Give the number of cores of the chip.",
        6 => "Give 0 or 1.",
        7 => "Give 1 to 32 tasks; split a longer table by chip.",
        8 => "Give 0 or 1.",
        9 => "Give T in quanta.",
        10 => "Give a D of at most T.",
        11 => "Give a C of at least 1 and at most D.",
        12 => "Send one plan in a file, and compare the head's count with the task lines.",
        13 => "Lend a list of at least n records; 32 are always enough.",
        14 => {
            "Shorten an execution time, lengthen a period, take a task away or add a core: none of these \
             turns a yes into a no. A deadline can go either way, so try it in both directions. The place \
             is the lowest-numbered task without a bound after forcing."
        }
        15 => {
            "Give other tasks as non-preemptive, or change times, tasks or cores, and try again. The place \
             is the lowest-numbered task without a bound."
        }
        16 => {
            "Lend a longer buffer, or start earlier: a plan has 11 bytes and 31 for each task, 1,003 at \
             most."
        }
        17 => {
            "Give a level from 1, the highest, to 32; two tasks may share one. Where the place in the table \
             is the level, leave it out, or use the calls without levels."
        }
        18 => {
            "Put the tasks in the order of their levels, with one task to a level, and leave the levels \
             out. A table whose tasks share a level is tested and forced from C and Rust."
        }
        // advice: end
        _ => NONE,
    }
}
