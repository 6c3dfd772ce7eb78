//! Compares the shifts at a position, floats by their bits.

use crate::{messages, same_parts, Compared};
use second::fields::by_df;
use second::grid::{shifts, Answer, COMPONENTS};
use second::gridsamples::{Grid, HALF_TURN};
use second::hex::hex;
use second::random::Random;
use second::refusal::number_of;
use second::samples::Sample;
use second::vectors::antimeridian::random_grid_across;
use second::vectors::shifts::random_grid;
use tarnoklej::ffi;

/// How many kinds of grids there are.
const GRIDS: u64 = 14;
/// The positions made before one on the wanted side of the meridian of 180 degrees is given up.
const TRIES: usize = 8;

/// The message number of a grid.
fn any_number(random: &mut Random) -> u16 {
    1023 + random.below(2) as u16
}

/// A grid of one of the kinds.
pub fn any_grid(random: &mut Random, kind: u64) -> Grid {
    let number = any_number(random);
    let grid = random_grid(random, number);
    of_kind(random, grid, kind % GRIDS)
}

/// A grid of one of the kinds that lies across 180 degrees.
pub fn any_grid_across(random: &mut Random, kind: u64) -> Grid {
    let grid = random_grid_across(random);
    of_kind(random, grid, kind % (GRIDS - 1))
}

/// A grid made one of a kind, answered or with reasons to be refused; the last kind has any fields.
fn of_kind(random: &mut Random, grid: Grid, kind: u64) -> Grid {
    let number = grid.sample.number;
    match kind {
        0..=4 => grid,
        5 => grid.set(190 + random.below(2) as u16, 0),
        6 => grid.set(212 + random.below(2) as u16, random.within(1, 3)),
        7 => without_origin(random, &grid),
        8 => grid.set(grid.spacing_fields()[random.below(2) as usize], 0),
        9 => without_mean(random, &grid),
        10 => at_the_ends(random, number),
        11 => without_node(random, &grid),
        12 => {
            let [one, other] = [0, 1].map(|_| 5 + random.below(5));
            let changed = of_kind(random, grid, one);
            of_kind(random, changed, other)
        }
        _ => Grid { sample: Sample::any(random, number) },
    }
}

/// The grid with an origin field that has no value, or is 0 where it is unsigned.
fn without_origin(random: &mut Random, grid: &Grid) -> Grid {
    let df = grid.origin_fields()[random.below(2) as usize];
    grid.set(df, by_df(df).reading(by_df(df).width_least()))
}

/// The grid with a mean that has no value.
fn without_mean(random: &mut Random, grid: &Grid) -> Grid {
    grid.set(grid.mean_field(random.below(3) as usize), None)
}

/// The grid with one of the four nodes in its middle that has no value in one component.
fn without_node(random: &mut Random, grid: &Grid) -> Grid {
    let component = random.below(COMPONENTS as u64) as usize;
    let node = messages::pick(random, &[6, 7, 10, 11]);
    grid.set_node(component, node, None)
}

/// A grid with origin, spacings, means and nodes at the ends of their ranges.
fn at_the_ends(random: &mut Random, number: u16) -> Grid {
    let origin = match (number, random.below(2)) {
        (1023, 0) => [648_000, 1_296_000],
        (1023, _) => [-648_000, -1_296_000],
        (_, 0) => [16_777_215, 67_108_863],
        (_, _) => [-16_777_215, 0],
    };
    let mean = if number == 1023 { 127 } else { 511 };
    let mut spacing = || if random.below(3) == 0 { 1 } else { 4_095 };
    let spacings = [spacing(), spacing()];
    Grid::of(number, origin, spacings, [mean, -mean, 16_383], |_, _| if random.below(2) == 0 { 255 } else { -255 })
}

/// The greatest position of a grid's message north and east.
pub fn limits(grid: &Grid) -> [i64; 2] {
    if grid.ellipsoidal() {
        [3_240_000_000, 6_480_000_000]
    } else {
        [1_000_000_000_000; 2]
    }
}

/// Steps from the origin along one axis: at lines, at parts of a cell that give halves, near both, or anywhere.
fn any_offset(random: &mut Random, spacing: i64) -> i64 {
    let line = spacing / 2 * (2 * random.within(-2, 1) + 1);
    let part = |random: &mut Random, parts: i64| line + spacing * random.within(0, parts) / parts;
    let near = random.within(-1, 1);
    match random.below(8) {
        0 => line,
        1 => line + near,
        2 => part(random, 20),
        3 => part(random, 20) + near,
        4 => part(random, 6),
        5 => spacing / 2 * 3 * random.within(-1, 1) + near,
        _ => random.within(-spacing * 3 / 2, spacing * 3 / 2),
    }
}

/// One axis of a position beyond all grids: at the limit, near it, or at the ends of 64 bits.
fn far(random: &mut Random, limit: i64) -> i64 {
    let sign = 1 - 2 * random.within(0, 1);
    match random.below(8) {
        0 => i64::MIN,
        1 => i64::MAX,
        2 => random.bits() as i64,
        _ => sign * limit + random.within(-1, 1),
    }
}

/// A position inside or beside the grid, one in ten at the limits.
pub fn any_position(random: &mut Random, grid: &Grid) -> [i64; 2] {
    let steps = grid.spacing().map(|spacing| any_offset(random, spacing));
    let mut position = grid.moved(grid.origin(), steps);
    if random.below(10) == 0 {
        let axis = random.below(2) as usize;
        position[axis] = far(random, limits(grid)[axis]);
    }
    position
}

/// A position east (1) or west (-1) of Greenwich, one in twelve on the meridian of 180 degrees by that side's name.
fn any_position_on_side(random: &mut Random, grid: &Grid, side: i64) -> [i64; 2] {
    let [north, east] = (0..TRIES)
        .map(|_| any_position(random, grid))
        .find(|position| position[1].signum() == side)
        .unwrap_or([grid.origin()[0], side * HALF_TURN]);
    [north, if random.below(12) == 0 { side * HALF_TURN } else { east }]
}

/// Compares the shifts at one position, every fourth turn of any message and the others of a grid message.
pub fn compare_shifts(random: &mut Random, turn: u64) -> Compared {
    let grid = any_grid(random, turn / 4 * 3 + turn % 4);
    let position = any_position(random, &grid);
    let bytes = if turn % 4 == 3 { messages::of_kind(random, turn / 4) } else { grid.bytes() };
    compare_at(bytes, position)
}

/// Compares the shifts of a grid across 180 degrees, at a position east of Greenwich.
pub fn compare_east_of_greenwich(random: &mut Random, turn: u64) -> Compared {
    compare_across(random, turn, 1)
}

/// Compares the shifts of a grid across 180 degrees, at a position west of Greenwich.
pub fn compare_west_of_greenwich(random: &mut Random, turn: u64) -> Compared {
    compare_across(random, turn, -1)
}

/// Compares the shifts of a grid across 180 degrees, at a position on one side of Greenwich.
fn compare_across(random: &mut Random, turn: u64, side: i64) -> Compared {
    let grid = any_grid_across(random, turn);
    let position = any_position_on_side(random, &grid, side);
    compare_at(grid.bytes(), position)
}

/// One part of an answer: refusal number, count, the bits of the float, and its unit.
#[derive(PartialEq, Debug)]
struct Part {
    refusal: u8,
    count: i64,
    bits: u64,
    unit: u8,
}

/// The header's number of the unit of a second answer.
fn unit_of(answer: &Answer) -> u8 {
    match answer {
        Answer::Refused(_) => 0,
        Answer::Seconds(_) => 1,
        Answer::Metres(_) => 2,
    }
}

/// The parts of the library's answer.
fn parts_of(at: ffi::Shifts) -> [Part; COMPONENTS] {
    let part = |refusal: u8, count: i64, float: f64, unit: u8| Part { refusal, count, bits: float.to_bits(), unit };
    [
        part(at.north_refusal, at.north_count, at.north, at.north_unit),
        part(at.east_refusal, at.east_count, at.east, at.east_unit),
        part(at.height_refusal, at.height_count, at.height, at.height_unit),
    ]
}

/// Compares the shifts of one message at one position.
pub fn compare_at(bytes: Vec<u8>, [north, east]: [i64; 2]) -> Compared {
    let bytes = bytes.into_boxed_slice();
    let second = shifts(&bytes, north, east).map(|part| Part {
        refusal: number_of(&part.count),
        count: part.count.unwrap_or(0),
        bits: part.float().to_bits(),
        unit: unit_of(&part.answer),
    });
    // SAFETY: the pointer and the length are those of a slice.
    let library = parts_of(unsafe { ffi::tarnoklej_shifts_at(bytes.as_ptr(), bytes.len(), north, east) });
    let refusals = [0, 1, 2].map(|component: usize| second[component].refusal);
    same_parts(&refusals, library, second, || format!("{} at {north} {east}", hex(&bytes)))
}
