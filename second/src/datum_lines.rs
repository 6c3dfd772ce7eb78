//! Checks what the command datum prints: each coordinate within one unit of the exact one, or the refusal.

use crate::datum::{targets, within_one_unit};
use crate::example::decimal;
use crate::grid::nearest;
use crate::shown;

/// The units of 0.1 mm nearest to a number of metres.
fn units(text: &str) -> Option<i64> {
    let (numerator, denominator) = decimal(text)?;
    i64::try_from(nearest(numerator * 10_000, denominator)).ok()
}

/// Whether a line is that of a coordinate: its name, a whole number within one unit of the target, and that in metres.
fn is_coordinate(line: &str, name: &str, target: &crate::whole::Whole) -> bool {
    let words: Vec<&str> = line.split(' ').collect();
    let [of, number, metres, "m"] = words[..] else { return false };
    let Ok(number) = number.parse::<i64>() else { return false };
    of == name && within_one_unit(number, target) && metres == shown::decimal(number.into(), 4)
}

/// Checks the lines for a call on a message, given by its words for X, Y and Z; or what is wrong.
pub fn check(message: &[u8], position: [&str; 3], printed: &str) -> Result<(), String> {
    let [Some(x), Some(y), Some(z)] = position.map(units) else { return Err("not a position".to_string()) };
    let lines: Vec<&str> = printed.lines().collect();
    let good = match targets(message, [x, y, z]) {
        Ok(exact) => {
            lines.len() == 3 && (0..3).all(|axis| is_coordinate(lines[axis], ["x", "y", "z"][axis], &exact[axis]))
        }
        Err(refusal) => printed == format!("refused {}\n", format!("{refusal:?}").to_uppercase()),
    };
    good.then_some(()).ok_or_else(|| format!("{printed:?} for {position:?}"))
}
