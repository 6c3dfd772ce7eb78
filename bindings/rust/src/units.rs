//! Units, resolutions, and numbers that are whole multiples of a resolution.

use std::fmt;

/// The unit of a shift or of a data field.
#[derive(Clone, Copy, PartialEq, Eq, PartialOrd, Ord, Hash, Debug)]
pub enum Unit {
    /// Arc seconds.
    ArcSecond,
    /// Metres.
    Metre,
    /// Degrees.
    Degree,
    /// Parts per million.
    PartPerMillion,
}

/// The step of a number that is sent as a whole number: `step` over 10 to the power of `decimals`.
#[derive(Clone, Copy, PartialEq, Eq, Hash, Debug)]
pub struct Resolution {
    /// How many of the last decimal place a step is.
    pub step: u8,
    /// The decimal places.
    pub decimals: u8,
}

/// A number of a data field or a shift: a whole number of steps of a resolution, with its unit.
///
/// It is printed exactly, with the decimal places of its resolution.
///
/// ```
/// use tarnoklej::{DataField, Unit};
///
/// let mean = DataField::of(198).expect("the mean height offset").quantity(4_692);
/// assert_eq!(mean.to_string(), "46.92 m");
/// assert_eq!((mean.decimal(), mean.unit, mean.to_f64()), ("46.92".to_string(), Some(Unit::Metre), 46.92));
/// ```
#[derive(Clone, Copy, PartialEq, Eq, Hash, Debug)]
pub struct Quantity {
    /// The whole number.
    pub count: i64,
    /// What one of it is.
    pub resolution: Resolution,
    /// The unit, or nothing for a plain number.
    pub unit: Option<Unit>,
}

impl Unit {
    /// The unit of a number in the library's shifts, or nothing for that of a refused part.
    pub const fn of_shift(number: u8) -> Option<Unit> {
        match number {
            1 => Some(Unit::ArcSecond),
            2 => Some(Unit::Metre),
            _ => None,
        }
    }

    /// The unit's name for more than one of it.
    pub const fn name(self) -> &'static str {
        match self {
            Unit::ArcSecond => "arc seconds",
            Unit::Metre => "metres",
            Unit::Degree => "degrees",
            Unit::PartPerMillion => "parts per million",
        }
    }

    /// The unit's sign.
    pub const fn sign(self) -> &'static str {
        match self {
            Unit::ArcSecond => "\"",
            Unit::Metre => "m",
            Unit::Degree => "°",
            Unit::PartPerMillion => "ppm",
        }
    }
}

impl fmt::Display for Unit {
    /// The unit's sign.
    fn fmt(&self, f: &mut fmt::Formatter) -> fmt::Result {
        f.pad(self.sign())
    }
}

impl Resolution {
    /// Whole numbers.
    pub const ONE: Resolution = Resolution { step: 1, decimals: 0 };
}

impl fmt::Display for Resolution {
    /// The step as a decimal number.
    fn fmt(&self, f: &mut fmt::Formatter) -> fmt::Result {
        f.pad(&Quantity { count: 1, resolution: *self, unit: None }.decimal())
    }
}

impl Quantity {
    /// The number without its unit, exact, with the decimal places of its resolution.
    pub fn decimal(&self) -> String {
        let Resolution { step, decimals } = self.resolution;
        let whole = i128::from(self.count) * i128::from(step);
        let places = usize::from(decimals);
        let digits = format!("{:0>width$}", whole.unsigned_abs(), width = places + 1);
        let (before, behind) = digits.split_at(digits.len() - places);
        let sign = if whole < 0 { "-" } else { "" };
        let point = if places > 0 { "." } else { "" };
        format!("{sign}{before}{point}{behind}")
    }

    /// The double nearest to the number, where the number of its last decimal places is below 2^53, as that of every data
    /// field and of every shift is.
    pub fn to_f64(&self) -> f64 {
        let Resolution { step, decimals } = self.resolution;
        (i128::from(self.count) * i128::from(step)) as f64 / 10f64.powi(i32::from(decimals))
    }
}

impl fmt::Display for Quantity {
    /// The number and its unit's sign.
    fn fmt(&self, f: &mut fmt::Formatter) -> fmt::Result {
        match self.unit {
            Some(unit @ (Unit::ArcSecond | Unit::Degree)) => write!(f, "{}{unit}", self.decimal()),
            Some(unit) => write!(f, "{} {unit}", self.decimal()),
            None => write!(f, "{}", self.decimal()),
        }
    }
}
