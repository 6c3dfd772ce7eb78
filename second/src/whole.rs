//! Whole numbers of any size, by digits of base 10^9.

use std::cmp::Ordering;
use std::fmt;
use std::ops::{Add, Mul, Neg, Sub};

/// The base of the digits.
const BASE: i128 = 1_000_000_000;
/// The decimal places of one digit.
const PLACES: usize = 9;

/// A whole number: its digits, the least significant first; all are from 0 to 999,999,999 but the last, which has the sign.
#[derive(Clone, Debug)]
pub struct Whole(Vec<i128>);

impl Whole {
    /// The number of digits of any size and sign, of which each hands what is beyond the base to the next.
    fn carried(mut digits: Vec<i128>) -> Whole {
        let mut carry = 0;
        for digit in &mut digits {
            let sum = *digit + carry;
            *digit = sum.rem_euclid(BASE);
            carry = sum.div_euclid(BASE);
        }
        while carry.abs() >= BASE {
            digits.push(carry.rem_euclid(BASE));
            carry = carry.div_euclid(BASE);
        }
        digits.push(carry);
        while digits.last() == Some(&0) {
            digits.pop();
        }
        Whole(digits)
    }

    /// Ten to a power.
    pub fn ten_to(power: usize) -> Whole {
        let mut digits = vec![0; power / PLACES];
        digits.push(10i128.pow((power % PLACES) as u32));
        Whole::carried(digits)
    }

    /// -1, 0 or 1 by the sign.
    pub fn sign(&self) -> i128 {
        self.0.last().map_or(0, |digit| digit.signum())
    }

    /// The number without its sign.
    pub fn magnitude(&self) -> Whole {
        if self.sign() < 0 {
            -self
        } else {
            self.clone()
        }
    }

    /// The digits of both numbers side by side, the shorter one with zeros behind its last.
    fn beside<'a>(&'a self, other: &'a Whole) -> impl Iterator<Item = (i128, i128)> + 'a {
        let digit = |number: &Whole, place: usize| number.0.get(place).copied().unwrap_or(0);
        (0..self.0.len().max(other.0.len())).map(move |place| (digit(self, place), digit(other, place)))
    }
}

impl From<i128> for Whole {
    fn from(number: i128) -> Whole {
        Whole::carried(vec![number])
    }
}

impl Add for &Whole {
    type Output = Whole;

    fn add(self, other: &Whole) -> Whole {
        Whole::carried(self.beside(other).map(|(a, b)| a + b).collect())
    }
}

impl Sub for &Whole {
    type Output = Whole;

    fn sub(self, other: &Whole) -> Whole {
        Whole::carried(self.beside(other).map(|(a, b)| a - b).collect())
    }
}

impl Neg for &Whole {
    type Output = Whole;

    fn neg(self) -> Whole {
        &Whole(Vec::new()) - self
    }
}

impl Mul for &Whole {
    type Output = Whole;

    fn mul(self, other: &Whole) -> Whole {
        let mut digits = vec![0; self.0.len() + other.0.len()];
        for (i, a) in self.0.iter().enumerate() {
            for (j, b) in other.0.iter().enumerate() {
                digits[i + j] += a * b;
            }
        }
        Whole::carried(digits)
    }
}

impl PartialEq for Whole {
    fn eq(&self, other: &Whole) -> bool {
        self.cmp(other) == Ordering::Equal
    }
}

impl Eq for Whole {}

impl PartialOrd for Whole {
    fn partial_cmp(&self, other: &Whole) -> Option<Ordering> {
        Some(self.cmp(other))
    }
}

impl Ord for Whole {
    fn cmp(&self, other: &Whole) -> Ordering {
        (self - other).sign().cmp(&0)
    }
}

impl fmt::Display for Whole {
    /// The number in decimal.
    fn fmt(&self, f: &mut fmt::Formatter) -> fmt::Result {
        let digits: String = self.magnitude().0.iter().rev().map(|digit| format!("{digit:09}")).collect();
        let shown = digits.trim_start_matches('0');
        f.pad_integral(self.sign() >= 0, "", if shown.is_empty() { "0" } else { shown })
    }
}
