//! The compiled planner beside the best form known and the textbook iteration, both in plain Rust: the same
//! plans, the same machine, one run. Answers are compared before anything is timed.

mod best;
mod clock;
mod cores;
mod growth;
mod hunt;
mod make;
mod mutate;
mod plans;
mod report;
mod rounds;
mod sides;
mod steps;
mod svg;
mod trial;

use std::io;
use std::path::Path;
use std::process::ExitCode;

const USAGE: &str = "usage: bench [COMMAND]
                       every workload, the textbook iteration only where it is quick
  all                  the textbook iteration everywhere: some minutes
  some PART            the workloads whose name holds PART
  cores [PART]         the fewest cores beside those in the heads
  compare COUNT [SEED] compares the three sides on random tables and damaged texts
  hunt SECONDS [SEED [FILE]]
                       looks for slow plans, and writes the worst into FILE
  growth FILE          evaluations a search against n, D and the ratio of periods; the picture into FILE
  rounds               edition 2: a round beside a test of edition 1, and beside plain rounds
  make                 writes full_, unbroken_, adv_full_ and adv_ramp_edf_m11 again
";

fn main() -> ExitCode {
    let words: Vec<String> = std::env::args().skip(1).collect();
    let words: Vec<&str> = words.iter().map(|word| word.as_str()).collect();
    match run(&words) {
        Some(Ok(())) => ExitCode::SUCCESS,
        Some(Err(error)) => {
            eprintln!("{error}");
            ExitCode::FAILURE
        }
        None => {
            eprint!("{USAGE}");
            ExitCode::from(2)
        }
    }
}

/// None for words that are no command.
fn run(words: &[&str]) -> Option<io::Result<()>> {
    match words {
        [] => report::run("", false),
        ["all"] => report::run("", true),
        ["some", part] => report::run(part, false),
        ["cores"] => cores::run(""),
        ["cores", part] => cores::run(part),
        ["hunt", seconds, rest @ ..] if rest.len() <= 2 => {
            let seed = rest.first().map_or(Some(1), |seed| seed.parse().ok())?;
            return Some(hunt::run(seconds.parse().ok()?, seed, rest.get(1).map(Path::new)));
        }
        ["growth", file] => return Some(growth::run(Path::new(file))),
        ["compare", count, rest @ ..] if rest.len() <= 1 => {
            let seed = rest.first().map_or(Some(1), |seed| seed.parse().ok())?;
            trial::run(count.parse().ok()?, seed)
        }
        ["rounds"] => rounds::run(),
        ["make"] => return Some(make::run()),
        _ => return None,
    }
    Some(Ok(()))
}
