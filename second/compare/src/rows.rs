//! Compares rows of shifts, the whole buffer before and after each.

use crate::shifting::{any_grid, any_grid_across, any_position, limits};
use crate::{messages, same, Compared};
use second::gridsamples::{Grid, HALF_TURN};
use second::hex::hex;
use second::random::Random;
use second::rows::{fill, Ask, MOST_PLACES};
use tarnoklej::ffi;

/// The places of most rows, a row of the most places coming once in many.
const FEW_PLACES: i64 = 60;
/// The places behind a buffer that must stay as they were.
const BEHIND: usize = 4;
/// A whole turn in steps of 1023.
const TURN: i64 = 2 * HALF_TURN;

/// The count of a row's places, now and then the most, one more, none, or past 64 bits.
fn any_count(random: &mut Random) -> usize {
    match random.below(400) {
        0 | 1 => MOST_PLACES,
        2 | 3 => MOST_PLACES + 1,
        4..=7 => 0,
        8 => random.bits() as usize,
        9 => random.within(1, MOST_PLACES as i64) as usize,
        10..=60 => 1 + random.below(3) as usize,
        _ => random.within(1, FEW_PLACES) as usize,
    }
}

/// A place at or near a column of nodes, or anywhere in the grid, as steps east of its origin.
fn any_east(random: &mut Random, wide: i64) -> i64 {
    let column = wide / 2 * (2 * random.within(-2, 1) + 1);
    match random.below(6) {
        0 => column,
        1 => column + random.within(-2, 2),
        2 => column + wide * random.within(0, 20) / 20 + random.within(-1, 1),
        3 => -3 * wide / 2,
        _ => random.within(-3 * wide / 2, 3 * wide / 2),
    }
}

/// A row that goes from one place of the grid to another, which ends exactly there or a little before.
fn row_within(random: &mut Random, grid: &Grid, count: usize) -> ([i64; 2], i64) {
    let [high, wide] = grid.spacing();
    let mut ends = [0, 1].map(|_| any_east(random, wide));
    ends.sort();
    let between = (count.clamp(2, MOST_PLACES) - 1) as i64;
    let step = (ends[1] - ends[0]) / between;
    let steps = [any_east(random, high), if random.below(2) == 0 { ends[1] - between * step } else { ends[0] }];
    (grid.moved(grid.origin(), steps), step)
}

/// A step of another kind: none, a few steps, a part of a cell that gives halves, cells, or past everything.
fn any_step(random: &mut Random, grid: &Grid) -> i64 {
    let wide = grid.spacing()[1];
    let limit = limits(grid)[1];
    match random.below(12) {
        0 => 0,
        1 => -random.within(1, 5),
        2 => random.bits() as i64,
        3 => limit * random.within(1, 2) + random.within(-1, 1),
        4 => wide * random.within(1, 3) + random.within(-1, 1),
        5 | 6 => wide / 20 * random.within(0, 3),
        7 | 8 => wide / random.within(1, 12),
        _ => random.within(0, 9),
    }
}

/// A row on a grid, one in five with another step and one in ten from another place.
fn any_ask(random: &mut Random, grid: &Grid) -> Ask {
    let count = any_count(random);
    let (mut start, mut step) = row_within(random, grid, count);
    if random.below(5) == 0 {
        step = any_step(random, grid);
    }
    if random.below(10) == 0 {
        start = any_position(random, grid);
    }
    let component = if random.below(20) == 0 { 3 + random.below(253) as u8 } else { random.below(3) as u8 };
    Ask { component, start, step, count }
}

/// A row from -180 degrees or near it, often by a whole turn or nearly one, or one that ends at or near +180 degrees.
fn any_ask_at_the_meridian(random: &mut Random, grid: &Grid) -> Ask {
    let [high, wide] = grid.spacing();
    let north = grid.origin()[0] + any_east(random, high);
    let ask = any_ask(random, grid);
    let aside = random.within(0, wide) * random.within(0, 1) + random.within(-1, 1);
    match random.below(3) {
        0 => {
            let step = TURN - aside - random.within(0, wide) * random.within(0, 1);
            Ask { start: [north, -HALF_TURN + aside], step, count: 1 + random.below(3) as usize, ..ask }
        }
        1 => Ask { start: [north, -HALF_TURN + aside], ..ask },
        _ => {
            let back = ask.step.clamp(0, wide) * (ask.count.clamp(1, MOST_PLACES) as i64 - 1);
            Ask { start: [north, HALF_TURN - back + random.within(-2, 1)], step: ask.step.clamp(0, wide), ..ask }
        }
    }
}

/// Compares one row, every fifth turn of any message and the others of a grid message.
pub fn compare_row(random: &mut Random, turn: u64) -> Compared {
    let grid = any_grid(random, turn / 5 * 4 + turn % 5);
    let ask = any_ask(random, &grid);
    let bytes = if turn % 5 == 4 { messages::of_kind(random, turn / 5) } else { grid.bytes() };
    compare(random, bytes, ask)
}

/// Compares one row of a grid across 180 degrees, every other one at the meridian.
pub fn compare_row_across(random: &mut Random, turn: u64) -> Compared {
    let grid = any_grid_across(random, turn);
    let ask = if turn.is_multiple_of(2) { any_ask(random, &grid) } else { any_ask_at_the_meridian(random, &grid) };
    compare(random, grid.bytes(), ask)
}

/// Compares one row of a message, what was in the buffer before being random.
fn compare(random: &mut Random, bytes: Vec<u8>, ask: Ask) -> Compared {
    let needed = ask.count.clamp(1, MOST_PLACES);
    let room = messages::any_room(random, needed, needed + 40);
    same_row(bytes, ask, room, (0..room + BEHIND).map(|_| random.bits() as i64).collect())
}

/// Compares a row that is given, in a buffer of some room, which may go on behind it.
pub fn same_row(bytes: Vec<u8>, ask: Ask, room: usize, before: Vec<i64>) -> Compared {
    let bytes = bytes.into_boxed_slice();
    let mut second = before.clone();
    let expected = fill(&bytes, &ask, &mut second[..room]);
    let mut library = before;
    let Ask { component, start: [north, east], step, count } = ask;
    // SAFETY: the pointers are those of slices that do not overlap, and the lengths are at most theirs.
    let refusal = unsafe {
        let row = library.as_mut_ptr();
        ffi::tarnoklej_shift_row(bytes.as_ptr(), bytes.len(), component, north, east, step, count, row, room)
    };
    same(expected, (refusal, library), (expected, second), || format!("{} {ask:?} room {room}", hex(&bytes)))
}
