//! Messages 1021 and positions to try the datum step on, and lists of both for other programs.

use crate::datum::{decimal, step, Parameters, FARTHEST};
use crate::fields::by_df;
use crate::hex::hex;
use crate::random::Random;
use crate::samples::Sample;

/// The data fields of the seven parameters: three translations, three rotations and the scale.
pub const PARAMETER_FIELDS: [u16; 7] = [156, 157, 158, 159, 160, 161, 162];

impl Parameters {
    /// The parameters from raw numbers in wire order.
    pub fn of([dx, dy, dz, r1, r2, r3, scale]: [i64; 7]) -> Parameters {
        Parameters { translation: [dx, dy, dz], rotation: [r1, r2, r3], scale }
    }

    /// The raw numbers in wire order.
    pub fn raw(&self) -> [i64; 7] {
        let ([dx, dy, dz], [r1, r2, r3]) = (self.translation, self.rotation);
        [dx, dy, dz, r1, r2, r3, self.scale]
    }

    /// A row of the parameters with computation indicator 0, whose other fields are as given.
    pub fn in_sample(&self, sample: &Sample) -> Sample {
        let fields = PARAMETER_FIELDS.into_iter().zip(self.raw());
        fields.fold(sample.with(150, 0), |sample, (df, value)| sample.with(df, value))
    }

    /// The parameters in metres, arc seconds and parts per million.
    fn in_units(&self) -> String {
        // The resolutions of DF156 to DF162: 0.001 m, 0.00002 arc second, 0.00001 PPM.
        let metres = self.translation.map(|raw| decimal_number(raw, 3));
        let seconds = self.rotation.map(|raw| decimal_number(2 * raw, 5));
        format!("{} {} {}", metres.join(" "), seconds.join(" "), decimal_number(self.scale, 5))
    }
}

/// A whole number over a power of ten as a decimal number.
fn decimal_number(numerator: i64, places: u32) -> String {
    let one = 10u64.pow(places);
    let magnitude = numerator.unsigned_abs();
    let sign = if numerator < 0 { "-" } else { "" };
    format!("{sign}{}.{:0width$}", magnitude / one, magnitude % one, width = places as usize)
}

/// The greatest raw numbers of the parameters of a national datum: about 1,000 m, 20 arc seconds and 30 PPM.
const NATIONAL: [i64; 7] = [1_000_000, 1_000_000, 1_000_000, 1_000_000, 1_000_000, 1_000_000, 3_000_000];

/// Parameters as a national datum has them, at the ends of their ranges, one alone, or anywhere in their ranges.
pub fn any_parameters(random: &mut Random) -> Parameters {
    let alone = random.below(7) as usize;
    let kind = random.below(6);
    let greatest = PARAMETER_FIELDS.map(|df| by_df(df).greatest());
    Parameters::of([0, 1, 2, 3, 4, 5, 6].map(|place| match kind {
        0 | 1 => random.within(-NATIONAL[place], NATIONAL[place]),
        2 => greatest[place] * random.within(-1, 1),
        3 if place != alone => 0,
        4 => random.within(-2, 2),
        _ => random.within(-greatest[place], greatest[place]),
    }))
}

/// A coordinate within the limits: of a place on the ground, at the limits or near them, small, or any.
fn any_coordinate(random: &mut Random, kind: u64) -> i64 {
    match kind {
        0 | 1 => random.within(-64_000_000_000, 64_000_000_000),
        2 => FARTHEST * random.within(-1, 1),
        3 => (FARTHEST - random.within(0, 3)) * (1 - 2 * random.within(0, 1)),
        4 => random.within(-3, 3),
        _ => random.within(-FARTHEST, FARTHEST),
    }
}

/// A position within the limits, mostly with three coordinates of one sort.
pub fn any_position(random: &mut Random) -> [i64; 3] {
    let kind = random.below(7);
    [0, 1, 2].map(|_| {
        let kind = if kind == 6 { random.below(6) } else { kind };
        any_coordinate(random, kind)
    })
}

/// Sets of parameters with positions and their exact targets, as text for other programs.
/// A set is a line `set`, its message, and its seven parameters in metres, arc seconds and PPM. A line for each of its
/// positions follows: the position, and its target, in units of 0.1 mm.
pub fn list(sets: usize, positions: usize) -> String {
    let mut random = Random::new(121);
    let mut text = String::new();
    for _ in 0..sets {
        let parameters = any_parameters(&mut random);
        let sample = parameters.in_sample(&Sample::any(&mut random, 1021));
        text += &format!("set {} {}\n", hex(&sample.bytes()), parameters.in_units());
        for _ in 0..positions {
            let position = any_position(&mut random);
            let [x, y, z] = step(&parameters, position).map(|target| decimal(&target));
            let [from_x, from_y, from_z] = position;
            text += &format!("{from_x} {from_y} {from_z} {x} {y} {z}\n");
        }
    }
    text
}
