//! Wanted heights and rows of a 1023 to try the making of a height grid on.

use crate::gridsamples::Grid;
use crate::heights::{GREATEST_MEAN, NODES};
use crate::message::Row;
use crate::random::Random;

/// The least and the greatest height that a message can say, in millimetres without sign.
pub const FARTHEST: i64 = 10 * GREATEST_MEAN + 255;
/// The greatest difference of two heights of a message.
pub const WIDEST: i64 = 510;

/// Heights from a least one to the one a span above it, both of which stand among them.
pub fn spread(random: &mut Random, least: i64, span: i64) -> [i64; NODES] {
    let mut heights = [0; NODES].map(|_| least.saturating_add(random.within(0, span)));
    let turn = random.below(NODES as u64) as usize;
    heights[0] = least.saturating_add(span);
    heights[1] = least;
    heights.rotate_left(turn);
    heights
}

/// Sixteen heights: mostly with a mean or nearly so, else one far from the others or any.
pub fn any_heights(random: &mut Random) -> [i64; NODES] {
    let span = match random.below(4) {
        0 => random.within(0, 40),
        1 => random.within(WIDEST - 12, WIDEST + 2),
        _ => random.within(0, WIDEST),
    };
    let least = match random.below(6) {
        0 => -FARTHEST + random.within(-2, 12),
        1 => FARTHEST - span + random.within(-12, 2),
        _ => random.within(-FARTHEST, FARTHEST - span),
    };
    let mut heights = spread(random, least, span);
    match random.below(12) {
        0 => heights[random.below(16) as usize] = random.within(-FARTHEST, FARTHEST),
        1 => heights[random.below(16) as usize] = [i64::MIN, i64::MAX, random.bits() as i64][random.below(3) as usize],
        2 => heights = [[i64::MIN, i64::MAX, random.bits() as i64][random.below(3) as usize]; NODES],
        _ => {}
    }
    heights
}

/// A row of a 1023 with shifts of heights on, an origin and spacings, for which its height fields do not matter.
pub fn row_of(grid: &Grid) -> Row {
    grid.set(191, 1).set(213, 0).sample.row()
}

/// The places of the height fields in a row of a 1023: the mean and the sixteen nodes.
pub fn height_places() -> [usize; 1 + NODES] {
    let grid = Grid::k().sample;
    let (mean, node) = (grid.place(198), grid.place(201));
    std::array::from_fn(|i| if i == 0 { mean } else { node + 3 * (i - 1) })
}

/// The row with any numbers in its height fields.
pub fn with_any_heights(random: &mut Random, mut row: Row) -> Row {
    for place in height_places() {
        (row.values[place], row.present[place]) = (random.bits() as i64, random.bits() as u8);
    }
    row
}
