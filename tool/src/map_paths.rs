//! The places of a map as paths, one place being one unit wide and high.

use crate::map_colours::Bands;
use crate::map_plan::SIDE;
use std::fmt::Write;

/// The path of all places that are chosen, runs of neighbours in a row being one rectangle.
fn path(chosen: impl Fn(usize) -> bool) -> String {
    let mut path = String::new();
    for row in 0..SIDE {
        let mut column = 0;
        while column < SIDE {
            let length = (column..SIDE).take_while(|&place| chosen(row * SIDE + place)).count();
            if length > 0 {
                write!(path, "M{column} {row}h{length}v1h-{length}z").expect("a string takes all that is written");
            }
            column += length.max(1);
        }
    }
    path
}

/// The path of each band.
pub fn bands(counts: &[Option<i64>], bands: Bands) -> Vec<(i64, String)> {
    let of_band = |band| (band, path(|place| counts[place].is_some_and(|count| bands.band(count) == band)));
    (0..bands.number()).map(of_band).filter(|(_, path)| !path.is_empty()).collect()
}

/// The path of the places at which a level is passed: they are below it and their neighbour east or south is not, or the
/// other way round.
pub fn level(counts: &[Option<i64>], level: i64) -> String {
    let below = |place: usize| counts[place].map(|count| count < level);
    path(|place| {
        let is_below = below(place);
        let east = (place % SIDE + 1 < SIDE).then_some(place + 1);
        let south = (place + SIDE < counts.len()).then_some(place + SIDE);
        let other = |next: Option<usize>| next.and_then(below).is_some_and(|next| Some(!next) == is_below);
        other(east) || other(south)
    })
}
