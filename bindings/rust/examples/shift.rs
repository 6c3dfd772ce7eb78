//! shift FILE NORTH EAST: prints the shifts of a grid message at a position, as examples/shift.c does.
//!
//! FILE is one message without a frame. A position is in degrees for a 1023 and in metres for a 1024.

use std::process::ExitCode;
use tarnoklej::{message_number, shifts_at, Component, Position, Refusal, Shift, Unit};

/// The line of one component.
fn line(component: Component, part: Result<Shift, Refusal>) -> String {
    match part {
        Err(refusal) => format!("{component} refused {}", refusal.name()),
        Ok(shift) => {
            let unit = if shift.unit == Unit::ArcSecond { "arc seconds" } else { "m" };
            format!("{component} {} {} {unit}", shift.count, shift.quantity().decimal())
        }
    }
}

/// The lines of the three components, or what is wrong with the words.
fn lines(words: &[String]) -> Result<Vec<String>, String> {
    let [file, north, east] = words else {
        return Err("usage: shift FILE NORTH EAST (degrees for 1023, metres for 1024)".to_string());
    };
    let message = std::fs::read(file).map_err(|error| format!("shift: cannot read {file}: {error}"))?;
    let number = |word: &String| word.parse::<f64>().map_err(|_| format!("shift: not a number: {word}"));
    let (north, east) = (number(north)?, number(east)?);
    let position = match message_number(&message) {
        Some(1023) => Position::from_degrees(north, east),
        _ => Position::from_metres(north, east),
    };
    let shifts = shifts_at(&message, position);
    Ok(Component::ALL.map(|component| line(component, shifts.of(component))).to_vec())
}

fn main() -> ExitCode {
    let words: Vec<String> = std::env::args().skip(1).collect();
    match lines(&words) {
        Ok(lines) => {
            lines.iter().for_each(|line| println!("{line}"));
            ExitCode::SUCCESS
        }
        Err(error) => {
            eprintln!("{error}");
            ExitCode::from(2)
        }
    }
}
