//! Rows to try the readers and writers on.

use crate::fields::{by_df, Field, Kind, Reading};
use crate::layouts::fields_in_order;
use crate::message::Row;
use crate::random::Random;

/// A row with its data fields beside it.
#[derive(Clone)]
pub struct Sample {
    /// The message number.
    pub number: u16,
    /// The data field of each place of the row.
    pub dfs: Vec<u16>,
    /// What the fields say in wire order.
    pub readings: Vec<Reading>,
}

impl Sample {
    /// A row of given names, whose other fields are given by a function.
    pub fn new<R: Into<Reading>>(number: u16, names: [&[u8]; 2], mut other: impl FnMut(&Field) -> R) -> Self {
        let dfs = fields_in_order(number, [names[0].len(), names[1].len()]);
        let mut source = names[0].iter();
        let mut target = names[1].iter();
        let readings = dfs
            .iter()
            .map(|&df| match df {
                2 => Some(number as i64),
                143 => Some(names[0].len() as i64),
                144 => source.next().map(|&character| character as i64),
                145 => Some(names[1].len() as i64),
                146 => target.next().map(|&character| character as i64),
                _ => other(by_df(df)).into(),
            })
            .collect();
        Sample { number, dfs, readings }
    }

    /// A row whose names are empty and whose other fields are zero.
    pub fn zeros(number: u16) -> Self {
        Sample::new(number, [b"", b""], |_| 0)
    }

    /// A row of short names whose other fields are inside their ranges and differ from one another.
    pub fn usual(number: u16) -> Self {
        let mut random = Random::new(number as u64);
        Sample::new(number, [b"4936", b"31468"], |field| ordinary(&mut random, field))
    }

    /// A row of random names whose fields are often at the ends of their ranges.
    pub fn any(random: &mut Random, number: u16) -> Self {
        let source = random_name(random);
        let target = random_name(random);
        Sample::new(number, [&source, &target], |field| any_reading(random, field))
    }

    /// The place in the row where a data field stands for the first time.
    pub fn place(&self, df: u16) -> usize {
        self.dfs.iter().position(|&d| d == df).expect("a field of this message")
    }

    /// The same row with another reading at one place.
    pub fn with_at(&self, place: usize, reading: impl Into<Reading>) -> Self {
        let mut other = self.clone();
        other.readings[place] = reading.into();
        other
    }

    /// The same row with another reading for one data field.
    pub fn with(&self, df: u16, reading: impl Into<Reading>) -> Self {
        self.with_at(self.place(df), reading)
    }

    /// The value of a data field that has one.
    pub fn value(&self, df: u16) -> i64 {
        self.readings[self.place(df)].expect("a field with a value")
    }

    /// The row as two buffers.
    pub fn row(&self) -> Row {
        Row::of(&self.readings)
    }

    /// The bytes of the row by the widths alone, whatever the ranges say.
    pub fn bytes(&self) -> Vec<u8> {
        let mut writer = crate::bits::BitWriter::default();
        for (&df, &reading) in self.dfs.iter().zip(&self.readings) {
            let field = by_df(df);
            writer.number(field.sent(reading).expect("a none stands in signed fields alone"), field.width);
        }
        writer.into_bytes()
    }
}

/// A number inside the field's range that is neither an end nor zero where the range has others.
fn ordinary(random: &mut Random, field: &Field) -> i64 {
    if field.width <= 3 {
        return random.within(0, field.greatest());
    }
    random.within(field.least() + 1, field.greatest() - 1)
}

/// A reading that the field can have, often an end of its range or none.
pub fn any_reading(random: &mut Random, field: &Field) -> Reading {
    match random.below(8) {
        0 => Some(field.least()),
        1 => Some(field.greatest()),
        2 => Some(0),
        3 if field.signed() => Some(-1),
        4 if field.signed() => None,
        _ => Some(random.within(field.least(), field.greatest())),
    }
}

/// A name of 0 to 31 characters of any value.
fn random_name(random: &mut Random) -> Vec<u8> {
    let length = match random.below(6) {
        0 => 0,
        1 => 31,
        _ => random.below(32) as usize,
    };
    random.bytes(length)
}

/// The readings that a field can have and that are worth a case of their own, each with a word for it.
pub fn taken(field: &Field) -> Vec<(String, Reading)> {
    let mut cases = vec![("min".to_string(), Some(field.least())), ("max".to_string(), Some(field.greatest()))];
    cases.push(("zero".to_string(), Some(0)));
    if field.signed() {
        cases.push(("minus-one".to_string(), Some(-1)));
        cases.push(("not-available".to_string(), None));
    }
    if field.width <= 6 && field.kind != Kind::Character {
        cases.extend((field.least()..=field.greatest()).map(|code| (format!("code-{code}"), Some(code))));
    }
    if field.kind == Kind::Bits {
        cases.extend((0..field.width).map(|bit| (format!("bit-{}", bit + 1), Some(1 << (field.width - 1 - bit)))));
    }
    first_of_each(cases)
}

/// The numbers that fit the width, are outside the range and are not the "not available" pattern, each with a word for it.
pub fn refused(field: &Field) -> Vec<(String, i64)> {
    let all = vec![
        ("over".to_string(), field.greatest() + 1),
        ("under".to_string(), field.least() - 1),
        ("width-max".to_string(), field.width_greatest()),
        ("width-min-and-one".to_string(), field.width_least() + 1),
    ];
    let fits = |value: i64| field.width_least() <= value && value <= field.width_greatest();
    let outside = |value: i64| fits(value) && !field.can_be(field.reading(value));
    first_of_each(all.into_iter().filter(|&(_, value)| outside(value)).collect())
}

/// The numbers that do not even fit the width, each with a word for it.
pub fn too_wide(field: &Field) -> Vec<(String, i64)> {
    vec![
        ("past-width".to_string(), field.width_greatest() + 1),
        ("below-width".to_string(), field.width_least() - 1),
        ("whole-turn".to_string(), 1i64 << field.width),
    ]
}

/// The values that a field does not take and that are worth a case of their own, each with a word for it: outside its
/// range, beyond its width, and equal to the number that is sent for none.
pub fn not_taken(field: &Field) -> Vec<(String, i64)> {
    let pattern = field.not_available().map(|pattern| ("pattern".to_string(), pattern));
    refused(field).into_iter().chain(too_wide(field)).chain(pattern).collect()
}

/// An end of the 64-bit numbers with a word for it, by turns the one and the other.
pub fn end_by_turns(turn: usize) -> (String, i64) {
    if turn.is_multiple_of(2) {
        ("least".to_string(), i64::MIN)
    } else {
        ("greatest".to_string(), i64::MAX)
    }
}

/// The list without what stands in it before.
fn first_of_each<T: PartialEq + Copy>(cases: Vec<(String, T)>) -> Vec<(String, T)> {
    let mut seen = Vec::new();
    cases
        .into_iter()
        .filter(|&(_, value)| {
            let fresh = !seen.contains(&value);
            seen.push(value);
            fresh
        })
        .collect()
}
