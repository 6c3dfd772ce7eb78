//! Exact decimal numbers: texts to whole steps, and whole numbers to texts.

/// A positive decimal number: so many units of its last decimal.
#[derive(Clone, Copy, PartialEq, Eq, Debug)]
pub struct Decimal {
    /// Units of the last decimal.
    pub units: i128,
    /// How many decimals there are.
    pub decimals: usize,
}

/// The most digits that a number may have, so that all arithmetic stays exact.
const MOST_DIGITS: usize = 27;

impl Decimal {
    /// The number of a text: a sign, digits, and at most one point among them.
    pub fn parse(text: &str) -> Option<Decimal> {
        let (negative, digits) = match text.as_bytes().first()? {
            b'-' => (true, &text[1..]),
            b'+' => (false, &text[1..]),
            _ => (false, text),
        };
        let (whole, part) = digits.split_once('.').unwrap_or((digits, ""));
        let all = format!("{whole}{part}");
        let is_number = !all.is_empty() && all.len() <= MOST_DIGITS && all.bytes().all(|sign| sign.is_ascii_digit());
        let units: i128 = is_number.then(|| all.parse().ok())??;
        Some(Decimal { units: if negative { -units } else { units }, decimals: part.len() })
    }

    /// The whole number of steps nearest to the number, halves going away from zero; one is `steps_in_one` steps.
    pub fn nearest_steps(self, steps_in_one: i64) -> Option<i64> {
        let divisor = ten_to(self.decimals);
        let size = (self.units * i128::from(steps_in_one)).unsigned_abs();
        let nearest = i128::try_from((2 * size + divisor.unsigned_abs()) / (2 * divisor.unsigned_abs())).ok()?;
        i64::try_from(if self.units < 0 { -nearest } else { nearest }).ok()
    }
}

/// A power of ten.
pub fn ten_to(places: usize) -> i128 {
    (0..places).fold(1, |power, _| power * 10)
}

/// Appends units of the last decimal as a number with decimals.
pub fn push_decimal(text: &mut String, units: i128, decimals: usize) {
    use std::fmt::Write;
    let sign = if units < 0 { "-" } else { "" };
    let size = units.unsigned_abs();
    let one = ten_to(decimals).unsigned_abs();
    let written = match decimals {
        0 => write!(text, "{sign}{size}"),
        _ => write!(text, "{sign}{}.{:0decimals$}", size / one, size % one),
    };
    written.expect("a string takes all that is written");
}

/// Units of the last decimal as a text.
pub fn decimal_text(units: i128, decimals: usize) -> String {
    let mut text = String::new();
    push_decimal(&mut text, units, decimals);
    text
}

#[cfg(test)]
mod tests {
    use super::*;

    #[test]
    fn texts_are_whole_steps() {
        let steps = |text: &str, in_one| Decimal::parse(text).and_then(|number| number.nearest_steps(in_one));
        assert_eq!(steps("49", 36_000_000), Some(1_764_000_000));
        assert_eq!(steps("-0.00000005", 36_000_000), Some(-2)); // 1.8 steps
        assert_eq!(steps("0.5", 1), Some(1));
        assert_eq!(steps("-0.5", 1), Some(-1));
        assert_eq!(steps("0.49999999999999999999", 1), Some(0));
        assert_eq!(steps("+.25", 2), Some(1));
        assert_eq!(steps("7.", 1), Some(7));
        for bad in ["", "-", ".", "1e3", "1,5", "0x10", " 1", "1 ", "nan", "1.2.3", "--1", "1-", "٣"] {
            assert_eq!(steps(bad, 1), None, "{bad}");
        }
        assert_eq!(steps("9223372036854775807", 1), Some(i64::MAX));
        assert_eq!(steps("9223372036854775808", 1), None);
        assert_eq!(steps("9999999999999999999999999999", 1), None);
    }

    #[test]
    fn numbers_are_texts() {
        assert_eq!(decimal_text(-5, 3), "-0.005");
        assert_eq!(decimal_text(12_345, 4), "1.2345");
        assert_eq!(decimal_text(0, 9), "0.000000000");
        assert_eq!(decimal_text(-70, 0), "-70");
    }
}
