//! The command shift: the three shifts of a grid at a position.

use crate::arguments::Arguments;
use crate::choose;
use crate::decimal::decimal_text;
use crate::failure::{unwritten, Failure};
use crate::grid::{Units, GRIDS};
use crate::library::{shifts_at, Component, Position, Refusal};
use crate::number;
use std::io::Write;

/// The line of one part.
fn line(component: Component, units: Units, part: Result<i64, Refusal>) -> String {
    let name = component.name();
    match part {
        Ok(count) => {
            let (decimals, unit) = units.of_count(component);
            format!("{name} {count} {} {unit}\n", decimal_text(count.into(), decimals))
        }
        Err(refusal) => format!("{name} refused {}\n", refusal.name()),
    }
}

/// Prints the shifts of a file's grid at a position.
pub fn run(mut arguments: Arguments) -> Result<(), Failure> {
    let sin = choose::sin_option(&mut arguments)?;
    let [file, north, east] = ["FILE", "NORTH", "EAST"].map(|name| arguments.required(name));
    let (file, north, east) = (file?, north?, east?);
    arguments.end()?;
    let message = choose::message(&file, &GRIDS, sin)?;
    let units = Units::of(&message);
    let steps = |text: &str, what| number::steps(text, what, units.steps_in_one());
    let position = Position::new(steps(&north, "NORTH")?, steps(&east, "EAST")?);
    let shifts = shifts_at(&message, position);
    let parts = Component::ALL.map(|component| shifts.of(component).map(|shift| shift.count));
    let lines: String = Component::ALL.into_iter().zip(parts).map(|(which, part)| line(which, units, part)).collect();
    std::io::stdout().write_all(lines.as_bytes()).map_err(unwritten)?;
    match parts {
        [Err(refusal), Err(_), Err(_)] => Err(Failure::Refused(refusal.to_string())),
        _ => Ok(()),
    }
}
