//! The batch files: a stream of cases on standard input, and what is expected on standard output. A case is a
//! digit for what is asked, the length of its text in four decimal digits, a byte 0A, and the text.

use crate::{plan_cases, reading_cases, writing_cases};
use std::fs;
use std::io;
use std::path::Path;

/// A text that is longer would need more than a small buffer in the programs that read the stream.
pub const LONGEST_TEXT: usize = 9_999;

/// What is asked of a text.
#[derive(Clone, Copy)]
pub enum Asked {
    Reading = 0,
    Listing = 1,
    Writing = 2,
    Changing = 3,
}

/// The stream of these texts.
pub fn stream(asked: Asked, texts: &[Vec<u8>]) -> Vec<u8> {
    let mut bytes = Vec::new();
    for text in texts {
        assert!(text.len() <= LONGEST_TEXT);
        bytes.extend(format!("{}{:04}\n", asked as u8, text.len()).bytes());
        bytes.extend(text);
    }
    bytes
}

/// The stream of all cases, and what is expected of it: the reading cases, then the plan cases, those of
/// writing, and those of plans to be changed.
pub fn all() -> (Vec<u8>, String) {
    let texts: Vec<Vec<u8>> = reading_cases::cases().into_iter().map(|case| case.text).collect();
    let mut bytes = stream(Asked::Reading, &texts);
    let mut lines: String = texts.iter().map(|text| reading_cases::expected(text)).collect();
    let texts = plan_cases::cases();
    bytes.extend(stream(Asked::Listing, &texts));
    lines.extend(texts.iter().map(|text| plan_cases::expected(text)));
    let cases = writing_cases::cases();
    let texts: Vec<Vec<u8>> = cases.iter().map(|case| case.text()).collect();
    bytes.extend(stream(Asked::Writing, &texts));
    lines.extend(cases.iter().map(|case| case.expected()));
    let changes = writing_cases::changes();
    let texts: Vec<Vec<u8>> = changes.iter().map(|change| change.text()).collect();
    bytes.extend(stream(Asked::Changing, &texts));
    lines.extend(changes.iter().map(|change| change.expected()));
    (bytes, lines)
}

/// Writes the two files into a directory, which is made where it is missing.
pub fn write(dir: &Path) -> io::Result<()> {
    let (bytes, lines) = all();
    fs::create_dir_all(dir)?;
    fs::write(dir.join("stdin"), bytes)?;
    fs::write(dir.join("stdout"), lines)
}
