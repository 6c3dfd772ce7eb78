//! Numbers among the words of a call.

use crate::decimal::Decimal;
use crate::failure::{wrong, Failure};

/// The whole steps nearest to a decimal number, halves going away from zero.
pub fn steps(text: &str, what: &str, steps_in_one: i64) -> Result<i64, Failure> {
    let number = Decimal::parse(text).and_then(|number| number.nearest_steps(steps_in_one));
    number.ok_or_else(|| wrong(format!("{what} is not a number: {text}")))
}

/// A whole number.
pub fn whole(text: &str, what: &str) -> Result<i64, Failure> {
    text.parse().map_err(|_| wrong(format!("{what} is not a whole number: {text}")))
}
