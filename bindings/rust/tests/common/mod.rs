//! What several tests use.

use std::path::{Path, PathBuf};
use tarnoklej::*;

/// A file or folder of the repository.
#[allow(dead_code)]
pub fn in_repository(name: &str) -> PathBuf {
    Path::new(env!("CARGO_MANIFEST_DIR")).join("../..").join(name)
}

/// The text of a file of the repository.
#[allow(dead_code)]
pub fn text_of(name: &str) -> String {
    std::fs::read_to_string(in_repository(name)).unwrap_or_else(|error| panic!("{name}: {error}"))
}

/// A position some steps north and east of another.
#[allow(dead_code)]
pub fn moved(position: Position, north: i64, east: i64) -> Position {
    Position { north: position.north + north, east: position.east + east }
}

/// Grid K with other values at places of its row.
#[allow(dead_code)]
pub fn grid_k_with(others: &[(usize, Option<i64>)]) -> Vec<u8> {
    let mut row = example::grid_k_fields().row();
    others.iter().for_each(|&(place, value)| row[place] = value);
    write_fields(&row).expect("a sound row")
}

/// A 1025 of zeros with a system identification number.
#[allow(dead_code)]
pub fn projection(sin: u8) -> Vec<u8> {
    write_fields(&[1025, i64::from(sin), 0, 0, 0, 0, 0, 0].map(Some)).expect("a sound row")
}
