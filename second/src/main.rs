//! The commands of the second program; each has a small file of its own.

mod commands {
    pub mod hunt;
    pub mod listing;
    pub mod listings;
    pub mod plans;
    pub mod rounds;
    pub mod text_cases;
    pub mod word;
}

use std::path::Path;
use std::process::ExitCode;

const USAGE: &str = "usage: second COMMAND
  listing [2]          a plan on standard input, its listing on standard output, under edition 1 or 2
  word [2]             the manifest's word line of that plan, under edition 1 or 2
  text-cases DIR       writes DIR/stdin and DIR/stdout, the reading cases and the plan cases
  plans ROOT           writes the plans of ROOT/examples and ROOT/corpus
  examples DIR         writes NAME.listing beside each NAME.plan of DIR
  rounds               hunts for tables with many rounds under edition 2
  hunt                 says which plans of the corpus give which wrong planner away
";

fn main() -> ExitCode {
    let words: Vec<String> = std::env::args().skip(1).collect();
    let words: Vec<&str> = words.iter().map(|word| word.as_str()).collect();
    let done = match words[..] {
        ["listing"] => commands::listing::run(1),
        ["listing", "2"] => commands::listing::run(2),
        ["word"] => commands::word::run(1),
        ["word", "2"] => commands::word::run(2),
        ["text-cases", dir] => commands::text_cases::run(Path::new(dir)),
        ["plans", root] => commands::plans::run(Path::new(root)),
        ["examples", dir] => commands::listings::run(Path::new(dir)),
        ["rounds"] => commands::rounds::run(1),
        ["hunt"] => commands::hunt::run(),
        _ => {
            eprint!("{USAGE}");
            return ExitCode::from(2);
        }
    };
    match done {
        Ok(()) => ExitCode::SUCCESS,
        Err(error) => {
            eprintln!("{error}");
            ExitCode::FAILURE
        }
    }
}
