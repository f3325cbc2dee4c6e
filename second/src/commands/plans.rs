//! Writes the plans of the directories `examples` and `corpus`.

use second::corpus::{bad, examples, good, Plan};
use std::fs;
use std::io;
use std::path::Path;

pub fn run(root: &Path) -> io::Result<()> {
    write(&root.join("examples"), examples())?;
    write(&root.join("corpus").join("good"), good())?;
    write(&root.join("corpus").join("bad"), bad())
}

fn write(dir: &Path, plans: Vec<Plan>) -> io::Result<()> {
    fs::create_dir_all(dir)?;
    for (name, text) in plans {
        fs::write(dir.join(name).with_extension("plan"), text)?;
    }
    Ok(())
}
