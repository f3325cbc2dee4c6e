//! The plan printer, under either edition.

use second::{edition2, listing, textbook};
use std::io::{self, Read, Write};

pub fn run(edition: u32) -> io::Result<()> {
    let mut text = Vec::new();
    io::stdin().read_to_end(&mut text)?;
    let answer = match edition {
        1 => listing::listing(&text, textbook::bound_of),
        _ => edition2::listing(&text, edition2::bound_of),
    };
    io::stdout().write_all(answer.as_bytes())
}
