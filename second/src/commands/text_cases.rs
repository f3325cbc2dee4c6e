//! Writes the batch: reading cases, plan cases, and those of writing.

use second::{batch, plan_cases, reading_cases, writing_cases};
use std::io;
use std::path::Path;

pub fn run(dir: &Path) -> io::Result<()> {
    println!("reading cases: {}, seed {}", reading_cases::cases().len(), reading_cases::SEED);
    println!("plan cases: {}, seed {}", plan_cases::cases().len(), plan_cases::SEED);
    println!("writing cases: {}, seed {}", writing_cases::cases().len(), writing_cases::SEED);
    println!("plans to be changed: {}", writing_cases::changes().len());
    batch::write(dir)
}
