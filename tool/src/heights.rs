//! The command heights: the frame of a height grid made from sixteen heights.

use crate::arguments::Arguments;
use crate::failure::{unreadable, unwritten, wrong, Failure};
use crate::library::{write_frame, write_heights, NODES};
use crate::number;
use std::io::Write;

/// Nodes in a row of the grid.
const IN_A_ROW: usize = 4;
/// Fields of a 1023.
const FIELDS: usize = 64;
/// Steps of 0.5 arc second, in which the message has its origin and spacing, in one degree and in one arc second.
const IN_A_DEGREE: i64 = 7_200;
const IN_A_SECOND: i64 = 2;
/// The first field behind the nodes.
const BEHIND_NODES: usize = 59;

/// The sixteen heights of a CSV in millimetres.
fn heights(file: &str) -> Result<[i64; NODES], Failure> {
    let text = std::fs::read_to_string(file).map_err(|error| unreadable(file, &error))?;
    let lines: Vec<Vec<&str>> = text.lines().map(|line| line.split(',').map(str::trim).collect()).collect();
    if lines.len() != NODES / IN_A_ROW || lines.iter().any(|line| line.len() != IN_A_ROW) {
        return Err(wrong(format!("{file} is not four lines of four heights")));
    }
    let mut heights = [0; NODES];
    for (height, cell) in heights.iter_mut().zip(lines.concat()) {
        *height = number::steps(cell, &format!("a height in {file}"), 1_000)?;
    }
    Ok(heights)
}

/// The row of a grid of heights alone: the horizontal means and nodes are not available.
fn row(sin: i64, north: i64, east: i64, spacing: i64) -> [Option<i64>; FIELDS] {
    let first = [1023, sin, 0, 1, north, east, spacing, spacing];
    std::array::from_fn(|place| match first.get(place) {
        Some(&value) => Some(value),
        None => (place >= BEHIND_NODES).then_some(0),
    })
}

/// Prints the frame of a grid in hexadecimal, or its bytes.
pub fn run(mut arguments: Arguments) -> Result<(), Failure> {
    let bytes = arguments.flag("--bytes");
    let file = arguments.required("FILE")?;
    let sin = number::whole(&arguments.required("SIN")?, "SIN")?;
    let north = number::steps(&arguments.required("NORTH")?, "NORTH", IN_A_DEGREE)?;
    let east = number::steps(&arguments.required("EAST")?, "EAST", IN_A_DEGREE)?;
    let spacing = number::steps(&arguments.required("SPACING")?, "SPACING", IN_A_SECOND)?;
    arguments.end()?;
    let written =
        write_heights(&row(sin, north, east, spacing), &heights(&file)?).and_then(|message| write_frame(&message));
    let mut out = std::io::stdout();
    match written {
        Ok(frame) if bytes => out.write_all(&frame).map_err(unwritten),
        Ok(frame) => {
            let digits: String = frame.iter().map(|byte| format!("{byte:02x}")).collect();
            writeln!(out, "{digits}").map_err(unwritten)
        }
        Err(refusal) => {
            if !bytes {
                writeln!(out, "refused {}", refusal.name()).map_err(unwritten)?;
            }
            Err(Failure::Refused(refusal.to_string()))
        }
    }
}
