//! The command datum: the datum step of a message 1021 at a geocentric position.

use crate::arguments::Arguments;
use crate::choose;
use crate::decimal::decimal_text;
use crate::failure::{unwritten, Failure};
use crate::library::{datum_step, Geocentric};
use crate::number;
use std::io::Write;

/// The decimals of a coordinate in metres.
const DECIMALS: usize = 4;

/// Prints the position in the target datum of a file's message 1021.
pub fn run(mut arguments: Arguments) -> Result<(), Failure> {
    let sin = choose::sin_option(&mut arguments)?;
    let file = arguments.required("FILE")?;
    let [x, y, z] = ["X", "Y", "Z"].map(|name| {
        let text = arguments.required(name)?;
        number::steps(&text, name, Geocentric::UNITS_PER_METRE)
    });
    let position = Geocentric::new(x?, y?, z?);
    arguments.end()?;
    let message = choose::message(&file, &[1021], sin)?;
    let mut out = std::io::stdout();
    match datum_step(&message, position) {
        Ok(Geocentric { x, y, z }) => {
            let line =
                |(name, units): (&str, i64)| format!("{name} {units} {} m\n", decimal_text(units.into(), DECIMALS));
            let lines: String = [("x", x), ("y", y), ("z", z)].into_iter().map(line).collect();
            out.write_all(lines.as_bytes()).map_err(unwritten)
        }
        Err(refusal) => {
            writeln!(out, "refused {}", refusal.name()).map_err(unwritten)?;
            Err(Failure::Refused(refusal.to_string()))
        }
    }
}
