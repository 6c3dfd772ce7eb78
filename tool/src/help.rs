//! The pages of help, one for each command.

use crate::failure::{unwritten, wrong, Failure};
use std::io::Write;

/// The commands and their pages, in the order of the list.
#[rustfmt::skip]
const PAGES: [(&str, &str); 13] = [
    ("decode", include_str!("../help/decode.txt")),
    ("shift", include_str!("../help/shift.txt")),
    ("datum", include_str!("../help/datum.txt")),
    ("heights", include_str!("../help/heights.txt")),
    ("map", include_str!("../help/map.txt")),
    ("identify", include_str!("../help/identify.txt")),
    ("frames", include_str!("../help/frames.txt")),
    ("report", include_str!("../help/report.txt")),
    ("samples", include_str!("../help/samples.txt")),
    ("write_samples", include_str!("../help/write_samples.txt")),
    ("bench", include_str!("../help/bench.txt")),
    ("compare", include_str!("../help/compare.txt")),
    ("help", LIST),
];

/// The list of commands.
pub const LIST: &str = include_str!("../help/help.txt");

/// Whether a word asks for help.
pub fn is_asked(word: &str) -> bool {
    matches!(word, "--help" | "-h")
}

/// The command of a word, if there is one.
pub fn command(word: &str) -> Option<&'static str> {
    PAGES.iter().find(|page| page.0 == word).map(|page| page.0)
}

/// Prints the page of a command.
pub fn show(name: &str) -> Result<(), Failure> {
    let page = PAGES.iter().find(|page| page.0 == name);
    let (_, text) = page.ok_or_else(|| unknown(name))?;
    std::io::stdout().write_all(text.as_bytes()).map_err(unwritten)
}

/// A word that is no command.
pub fn unknown(word: &str) -> Failure {
    wrong(format!("there is no command {word}; see tarnoklej help"))
}
