//! heights FILE SIN NORTH EAST SPACING: prints the frame of a height grid in hexadecimal, as examples/heights.c does.
//!
//! FILE is a CSV of sixteen heights in metres: four lines of four, from west to east, the northern line first. NORTH and EAST
//! are the middle of the grid in degrees, SPACING is that of its nodes in arc seconds.

use std::process::ExitCode;
use tarnoklej::{write_frame, write_heights, Message, Refusal, NODES};

/// The whole number nearest to a word's number times so many steps.
fn steps(word: &str, steps_in_one: f64) -> Result<i64, String> {
    let number = word.trim().parse::<f64>().map_err(|_| format!("heights: not a number: {word}"))?;
    Ok((number * steps_in_one).round() as i64)
}

/// The heights of a file in millimetres.
fn wanted(file: &str) -> Result<[i64; NODES], String> {
    let text = std::fs::read_to_string(file).map_err(|error| format!("heights: cannot read {file}: {error}"))?;
    let heights: Result<Vec<i64>, String> =
        text.lines().flat_map(|line| line.split(',')).map(|word| steps(word, 1_000.0)).collect();
    heights?.try_into().map_err(|_| format!("heights: not sixteen heights: {file}"))
}

/// A 1023 of heights alone, whose horizontal means and nodes have no value.
fn grid(sin: i64, north: i64, east: i64, spacing: i64) -> Result<Message, Refusal> {
    let mut grid = Message::new(1023)?;
    grid.set(147, sin)?.set(191, 1)?.set(192, north)?.set(193, east)?.set(194, spacing)?.set(195, spacing)?;
    grid.set(196, None)?.set(197, None)?;
    for node in 1..=NODES as u8 {
        grid.set_node(199, node, None)?.set_node(200, node, None)?;
    }
    Ok(grid)
}

/// The frame of the words' grid in hexadecimal or its refusal, or what is wrong with the words.
fn line(words: &[String]) -> Result<String, String> {
    let [file, sin, north, east, spacing] = words else {
        return Err("usage: heights FILE SIN NORTH EAST SPACING (degrees, and arc seconds)".to_string());
    };
    let wanted = wanted(file)?;
    // Origin and spacing stand in steps of half an arc second.
    let (sin, spacing) = (steps(sin, 1.0)?, steps(spacing, 2.0)?);
    let (north, east) = (steps(north, 7_200.0)?, steps(east, 7_200.0)?);
    let frame = grid(sin, north, east, spacing)
        .and_then(|grid| write_heights(&grid.row(), &wanted))
        .and_then(|message| write_frame(&message));
    Ok(match frame {
        Ok(frame) => frame.iter().map(|byte| format!("{byte:02x}")).collect(),
        Err(refusal) => format!("refused {}", refusal.name()),
    })
}

fn main() -> ExitCode {
    let words: Vec<String> = std::env::args().skip(1).collect();
    match line(&words) {
        Ok(line) => {
            println!("{line}");
            ExitCode::SUCCESS
        }
        Err(error) => {
            eprintln!("{error}");
            ExitCode::from(2)
        }
    }
}
