//! Writes the expected listing beside each plan of a directory.

use second::plan_cases::expected;
use std::fs;
use std::io;
use std::path::Path;

pub fn run(dir: &Path) -> io::Result<()> {
    for entry in fs::read_dir(dir)? {
        let path = entry?.path();
        if path.extension().is_some_and(|ending| ending == "plan") {
            let text = fs::read(&path)?;
            fs::write(path.with_extension("listing"), expected(&text))?;
        }
    }
    Ok(())
}
