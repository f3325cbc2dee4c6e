//! Says which plans give which wrong planner away, and finds a small table where none does.

use second::corpus::{bad, examples, good};
use second::hunt::{catches, smallest};
use second::plan::read;
use second::slips::WRONG;
use std::io;

pub fn run() -> io::Result<()> {
    let mut plans = Vec::new();
    for (dir, list) in [("examples", examples()), ("good", good()), ("bad", bad())] {
        for (name, text) in list {
            if let Ok(table) = read(&text) {
                plans.push((format!("{dir}/{name}"), table));
            }
        }
    }
    for wrong in WRONG {
        let found = plans.iter().filter(|(_, table)| catches(table, wrong.slip));
        let names: Vec<&str> = found.map(|(name, _)| name.as_str()).collect();
        println!("{}: {}", wrong.name, names.join(" "));
        if names.is_empty() {
            println!("  a small one: {:?}", smallest(wrong.slip));
        }
    }
    Ok(())
}
