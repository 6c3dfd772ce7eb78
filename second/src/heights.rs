//! Making a height grid: a message 1023 from sixteen wanted heights and the rest of its row (document 02, A11).

use crate::fields::Reading;
use crate::layouts::fields_in_order;
use crate::message::{place_of, write_row, Row};
use crate::refusal::Refusal;

/// The nodes of a grid.
pub const NODES: usize = 16;
/// The greatest mean DF198 without sign, in steps of 0.01 m.
pub const GREATEST_MEAN: i64 = 16_383;
/// The greatest difference of a height from the mean without sign, in millimetres, which are the steps of DF201.
pub const GREATEST_NODE: i128 = 255;
/// The millimetres in one step of DF198.
const MEAN_STEP: i128 = 10;

/// The least mean for which every height less the mean lies within 255 mm, if there is one.
pub fn smallest_mean(wanted: &[i64]) -> Option<i64> {
    (-GREATEST_MEAN..=GREATEST_MEAN)
        .find(|&mean| wanted.iter().all(|&height| less_mean(height, mean).abs() <= GREATEST_NODE))
}

/// A height in millimetres less a mean.
fn less_mean(height: i64, mean: i64) -> i128 {
    height as i128 - mean as i128 * MEAN_STEP
}

/// The places of a data field in the row of a 1023.
fn places(df: u16) -> Vec<usize> {
    let fields = fields_in_order(1023, [0, 0]);
    (0..fields.len()).filter(|&place| fields[place] == df).collect()
}

/// What a data field says that stands once in a row of a 1023, or nothing where its two numbers are no place of a row.
fn says(row: &Row, df: u16) -> Option<Reading> {
    let place = places(df)[0];
    place_of(row.values[place], row.present[place])
}

/// The first of OFF, METHOD, ORIGIN and SPACING that the record gives.
fn refusal_of_record(row: &Row) -> Option<Refusal> {
    let any_says = |fields: [u16; 2], reading: Reading| fields.iter().any(|&df| says(row, df) == Some(reading));
    if says(row, 191) == Some(Some(0)) {
        Some(Refusal::Off)
    } else if says(row, 213).flatten().is_some_and(|method| method != 0) {
        Some(Refusal::Method)
    } else if any_says([192, 193], None) {
        Some(Refusal::Origin)
    } else if any_says([194, 195], Some(0)) {
        Some(Refusal::Spacing)
    } else {
        None
    }
}

/// The row with a mean and with nodes for the wanted heights, whatever stood there.
fn with_heights(row: &Row, mean: i64, wanted: &[i64]) -> Row {
    let mut row = row.clone();
    let mut set = |place: usize, value: i64| (row.values[place], row.present[place]) = (value, 1);
    set(places(198)[0], mean);
    for (place, &height) in places(201).into_iter().zip(wanted) {
        set(place, less_mean(height, mean) as i64);
    }
    row
}

/// Writes the message of the wanted heights in millimetres, node 1 first, and of the other fields of a 1023's row: RANGE for
/// wrong counts, then OFF, METHOD, ORIGIN, SPACING, NOMEAN, RANGE for the other fields, ROOM.
pub fn write_heights(row: &Row, wanted: &[i64], room: usize) -> Result<Vec<u8>, Refusal> {
    let fields = fields_in_order(1023, [0, 0]).len();
    if (row.values.len(), row.present.len(), wanted.len()) != (fields, fields, NODES) {
        return Err(Refusal::Range);
    }
    if let Some(refusal) = refusal_of_record(row) {
        return Err(refusal);
    }
    let mean = smallest_mean(wanted).ok_or(Refusal::NoMean)?;
    if row.values[0] != 1023 {
        return Err(Refusal::Range);
    }
    write_row(&with_heights(row, mean, wanted), room)
}
