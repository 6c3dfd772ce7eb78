//! What the C example examples/heights.c must print.

use crate::example::decimal;
use crate::frame::frame_of;
use crate::grid::nearest;
use crate::heights::{write_heights, NODES};
use crate::hex::hex;
use crate::samples::Sample;
use std::io::{Error, Result};

/// The whole steps nearest to a decimal number.
fn steps(text: &str, in_one: i128) -> Option<i64> {
    let (numerator, denominator) = decimal(text)?;
    i64::try_from(nearest(numerator * in_one, denominator)).ok()
}

/// The sixteen heights of a CSV in millimetres.
fn heights(csv: &str) -> Option<Vec<i64>> {
    let lines: Vec<Vec<&str>> = csv.lines().map(|line| line.split(',').collect()).collect();
    let cells = lines.concat();
    let good = cells.len() == NODES && lines.iter().all(|line| line.len() == 4);
    good.then(|| cells.into_iter().map(|cell| steps(cell, 1_000)).collect())?
}

/// The line of one call: the frame of the grid, or the refusal.
fn line(csv: &str, [sin, north, east, spacing]: [&str; 4]) -> Option<String> {
    let nothing = Sample::new(1023, [b"", b""], |field| if field.signed() { None } else { Some(0) });
    let spacing = steps(spacing, 2)?;
    let grid = nothing.with(147, steps(sin, 1)?).with(190, 0).with(191, 1).with(194, spacing).with(195, spacing);
    let grid = grid.with(192, steps(north, 7_200)?).with(193, steps(east, 7_200)?);
    Some(match write_heights(&grid.row(), &heights(csv)?, 73) {
        Ok(message) => format!("{}\n", hex(&frame_of(&message))),
        Err(refusal) => format!("refused {}\n", format!("{refusal:?}").to_uppercase()),
    })
}

/// What the example prints for every call of a list, each line of which is a file and four numbers.
pub fn all(list: &str) -> Result<String> {
    let mut text = String::new();
    for call in list.lines() {
        let not_a_call = || Error::other(format!("not a call: {call}"));
        let words: Vec<&str> = call.split(' ').collect();
        let [file, sin, north, east, spacing] = words[..] else { return Err(not_a_call()) };
        text += &line(&std::fs::read_to_string(file)?, [sin, north, east, spacing]).ok_or_else(not_a_call)?;
    }
    Ok(text)
}
