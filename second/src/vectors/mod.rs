//! Designed vectors: calls of the exported interface, and cases for the proved program `cases`, which runs what those calls
//! do not reach: lines for its standard input, and the lines it must print.

pub mod antimeridian;
mod call;
mod frames;
mod heights;
mod indexes;
pub mod lines;
mod parts;
mod points;
mod reads;
mod record_shifts;
mod records;
mod row_limits;
mod rows;
pub mod shifts;
mod tables;
mod tallies;
mod writes;

pub use call::{Call, OnTable, Vector};

use crate::hex::hex;
use crate::message::Row;
use crate::refusal::{number_of, Refusal};
use std::collections::HashSet;
use std::path::Path;

/// The longest line of the standard input.
const LONGEST_LINE: usize = 900;
/// The most cases.
const MOST_CASES: usize = 40_000;
/// The longest name of a vector, and of a case.
const LONGEST_NAME: usize = 40;

/// One case of the proved program.
pub struct Case {
    /// What the case shows.
    pub name: String,
    /// The command and its arguments.
    pub call: String,
    /// What the program prints behind the name.
    pub answer: String,
}

impl Case {
    /// The line of the standard input.
    fn input(&self) -> String {
        format!("{} {}\n", self.name, self.call)
    }

    /// The line of the standard output.
    fn output(&self) -> String {
        format!("{} {}\n", self.name, self.answer)
    }
}

/// What every byte of a buffer holds before a case's call.
const BEFORE: u8 = 0xa5;

/// The presence bytes of a row and then its values, as they stand behind a command.
fn row_words(row: &Row) -> String {
    let values: String = row.values.iter().map(|value| format!(" {value}")).collect();
    format!("{}{values}", hex(&row.present))
}

/// What is printed of a call that writes a message into a buffer.
fn buffer_after(written: Result<Vec<u8>, Refusal>, room: usize) -> String {
    let mut buffer = vec![BEFORE; room];
    let refusal = number_of(&written);
    let bytes = written.unwrap_or_default();
    buffer[..bytes.len()].copy_from_slice(&bytes);
    format!("{refusal} {} : {}", bytes.len(), hex(&buffer))
}

/// All vectors for the exported calls, in order; the calls on a table follow one another.
pub fn vectors() -> Vec<Vector> {
    let lists = [reads::cases(), writes::cases(), shifts::cases(), tables::cases(), indexes::cases()];
    let more = [frames::cases(), rows::cases(), heights::cases()];
    let vectors: Vec<Vector> = lists.into_iter().chain(more).flatten().collect();
    check_names(vectors.iter().map(|vector| &vector.name));
    vectors
}

/// The case of what the exported call of a vector does not reach, where there is such a part.
fn beyond_the_call(vector: &Vector) -> Option<Case> {
    match &vector.call {
        Call::Read(bytes) => Some(reads::kinds_case(&vector.name, bytes)),
        Call::Shift { bytes, position } => Some(shifts::answer_case(&vector.name, bytes, *position)),
        _ => None,
    }
}

/// All cases of the proved program, in order.
pub fn cases() -> Vec<Case> {
    let mut cases: Vec<Case> = vectors().iter().filter_map(beyond_the_call).collect();
    for more in [records::cases(), record_shifts::cases(), points::cases(), tallies::cases()] {
        cases.extend(more);
    }
    check_names(cases.iter().map(|case| &case.name));
    check_lines(&cases);
    cases
}

/// Stops where a name is used twice, is too long or has another character.
fn check_names<'a>(all: impl Iterator<Item = &'a String>) {
    let mut names = HashSet::new();
    for name in all {
        assert!(names.insert(name), "{name} is used twice");
        assert!(name.len() <= LONGEST_NAME, "the name {name} is too long");
        assert!(name.bytes().all(|b| b.is_ascii_lowercase() || b.is_ascii_digit() || b"-_".contains(&b)));
    }
}

/// Stops where a line is too long or the cases are too many.
fn check_lines(cases: &[Case]) {
    assert!(cases.len() <= MOST_CASES, "there are {} cases", cases.len());
    for case in cases {
        assert!(case.input().len() <= LONGEST_LINE, "the line of {} is too long", case.name);
    }
}

/// Writes the cases of the proved program as the files stdin and stdout of a folder.
pub fn write(dir: &Path) -> std::io::Result<usize> {
    write_files(dir, &cases())
}

/// Writes lines as the files stdin and stdout of a folder, and gives their number.
fn write_files(dir: &Path, cases: &[Case]) -> std::io::Result<usize> {
    std::fs::create_dir_all(dir)?;
    std::fs::write(dir.join("stdin"), cases.iter().map(Case::input).collect::<String>())?;
    std::fs::write(dir.join("stdout"), cases.iter().map(Case::output).collect::<String>())?;
    Ok(cases.len())
}
