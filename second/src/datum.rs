//! The datum step of a message 1021, by exact fractions (document 02, A12; 000, formulas 3.5-1 to 3.5-5).

use crate::message::{read, Message};
use crate::refusal::Refusal;
use crate::whole::Whole;

/// The greatest coordinate without sign, in units of 0.1 mm.
pub const FARTHEST: i64 = 100_000_000_000;
/// The decimal places of an exact target: it is a whole number over 10^35.
pub const PLACES: usize = 35;

/// One radian in parts of 10^24.
const RADIAN: i128 = 10i128.pow(24);
/// One raw rotation step in such parts.
const ROTATION_STEP: i128 = 96_962_736_221_907;
/// A scale of 1 in parts of 10^11, of which one raw scale step is one.
const SCALE: i128 = 10i128.pow(11);
/// The units of 0.1 mm in one raw translation step of 1 mm.
const TRANSLATION_STEP: i128 = 10;

/// The seven parameters of a message 1021 as raw numbers.
#[derive(Clone, Copy, PartialEq, Eq, Debug)]
pub struct Parameters {
    /// dX, dY, dZ: DF156 to DF158.
    pub translation: [i64; 3],
    /// R1, R2, R3: DF159 to DF161.
    pub rotation: [i64; 3],
    /// dS: DF162.
    pub scale: i64,
}

/// The exact target of each coordinate in units of 0.1 mm, as a numerator over 10^35.
pub type Targets = [Whole; 3];

/// The exact targets, with refusals 1 to 5, KIND, POSITION, METHOD and ABSENT in order.
pub fn targets(bytes: &[u8], position: [i64; 3]) -> Result<Targets, Refusal> {
    let message = read(bytes)?;
    if message.number != 1021 {
        return Err(Refusal::Kind);
    }
    if position.iter().any(|coordinate| !(-FARTHEST..=FARTHEST).contains(coordinate)) {
        return Err(Refusal::Position);
    }
    if message.number_in(150) != 0 {
        return Err(Refusal::Method);
    }
    let parameters = parameters_of(&message).ok_or(Refusal::Absent)?;
    Ok(step(&parameters, position))
}

/// The seven parameters of a message 1021, where all of them have values.
fn parameters_of(message: &Message) -> Option<Parameters> {
    let [Some(dx), Some(dy), Some(dz)] = [156, 157, 158].map(|df| message.reading(df)) else { return None };
    let [Some(r1), Some(r2), Some(r3)] = [159, 160, 161].map(|df| message.reading(df)) else { return None };
    let scale = message.reading(162)?;
    Some(Parameters { translation: [dx, dy, dz], rotation: [r1, r2, r3], scale })
}

/// Formula 3.5-1: the scale times the matrix times the source position, and the translation.
pub fn step(parameters: &Parameters, position: [i64; 3]) -> Targets {
    let [rx, ry, rz] = parameters.rotation.map(|raw| raw as i128 * ROTATION_STEP);
    let matrix = [
        [RADIAN, rz, -ry], //
        [-rz, RADIAN, rx],
        [ry, -rx, RADIAN],
    ];
    let scale = Whole::from(SCALE + parameters.scale as i128);
    let translation = parameters.translation.map(|raw| over_all_places(raw as i128 * TRANSLATION_STEP));
    [0, 1, 2].map(|row| {
        let rotated: i128 = (0..3).map(|column| matrix[row][column] * position[column] as i128).sum();
        &(&scale * &Whole::from(rotated)) + &translation[row]
    })
}

/// A whole number of units as a numerator over 10^35.
fn over_all_places(units: i128) -> Whole {
    &Whole::from(units) * &Whole::ten_to(PLACES)
}

/// Whether a coordinate lies within one unit of its exact target.
pub fn within_one_unit(coordinate: i64, target: &Whole) -> bool {
    (&over_all_places(coordinate as i128) - target).magnitude() <= Whole::ten_to(PLACES)
}

/// The whole number nearest to a target, halves going away from zero.
pub fn nearest(target: &Whole) -> i64 {
    let (whole, part) = whole_and_part(target);
    let magnitude = whole + i64::from(part.as_bytes()[0] >= b'5');
    magnitude * target.sign() as i64
}

/// The digits of a target before and behind the decimal point, without its sign.
fn whole_and_part(target: &Whole) -> (i64, String) {
    let digits = format!("{:01$}", target.magnitude(), PLACES + 1);
    let (whole, part) = digits.split_at(digits.len() - PLACES);
    (whole.parse().expect("a coordinate of 64 bits"), part.to_string())
}

/// A target as a decimal number of units with all places that are not 0.
pub fn decimal(target: &Whole) -> String {
    let (whole, part) = whole_and_part(target);
    let sign = if target.sign() < 0 { "-" } else { "" };
    format!("{sign}{whole}.{part}").trim_end_matches('0').trim_end_matches('.').to_string()
}
