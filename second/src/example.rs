//! What the C example examples/shift.c must print.

use crate::grid::{nearest, shifts, Answer, Part, COMPONENTS};
use crate::message::read;

/// The most bytes of a file that are looked at.
const LOOKED_AT: usize = 128;
/// The three components by name.
const NAMES: [&str; COMPONENTS] = ["north-south", "east-west", "height"];

/// A decimal number as a whole number and the power of ten it is divided by.
pub fn decimal(text: &str) -> Option<(i128, i128)> {
    let (negative, digits) = text.strip_prefix('-').map_or((false, text), |rest| (true, rest));
    let (whole, part) = digits.split_once('.').unwrap_or((digits, ""));
    let all: i128 = format!("{whole}{part}").parse().ok()?;
    Some((if negative { -all } else { all }, 10i128.pow(part.len() as u32)))
}

/// The whole steps nearest to degrees of 1023 or metres of any other message.
fn steps(number: u16, text: &str) -> Option<i64> {
    let in_one = if number == 1023 { 3_600 * 10_000 } else { 1_000 };
    let (numerator, denominator) = decimal(text)?;
    i64::try_from(nearest(numerator * in_one, denominator)).ok()
}

/// The line of one part.
fn line(name: &str, part: &Part) -> String {
    match (part.count, part.answer) {
        (Ok(count), Answer::Seconds(value)) => format!("{name} {count} {value:.5} arc seconds\n"),
        (Ok(count), Answer::Metres(value)) => format!("{name} {count} {value:.4} m\n"),
        (Err(refusal), _) => format!("{name} refused {}\n", format!("{refusal:?}").to_uppercase()),
        (Ok(_), Answer::Refused(_)) => unreachable!("the two answers are of one part"),
    }
}

/// The lines of the three components at a position given in degrees or metres.
fn lines(file: &[u8], north: &str, east: &str) -> Option<String> {
    let bytes = &file[..file.len().min(LOOKED_AT)];
    let number = read(bytes).map_or(0, |message| message.number);
    let (north, east) = (steps(number, north)?, steps(number, east)?);
    Some(NAMES.iter().zip(&shifts(bytes, north, east)).map(|(name, part)| line(name, part)).collect())
}

/// What the example prints for every call of a list, each line of which is a file, a north and an east.
pub fn all(list: &str) -> std::io::Result<String> {
    let mut text = String::new();
    for call in list.lines() {
        let words: Vec<&str> = call.split(' ').collect();
        let [file, north, east] = words[..] else { return Err(std::io::Error::other(format!("not a call: {call}"))) };
        let printed = lines(&std::fs::read(file)?, north, east);
        text += &printed.ok_or_else(|| std::io::Error::other(format!("not a position: {call}")))?;
    }
    Ok(text)
}
