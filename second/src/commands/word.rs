//! The manifest's line with the flags word of a plan as it is to be installed.

use second::word::line_of_text;
use std::io::{self, Read, Write};

pub fn run(edition: u32) -> io::Result<()> {
    let mut text = Vec::new();
    io::stdin().read_to_end(&mut text)?;
    io::stdout().write_all(line_of_text(&text, edition).as_bytes())
}
