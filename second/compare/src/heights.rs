//! Compares the making of a height grid.

use crate::messages::{any_room, outside_range, pick};
use crate::writing::{any_integer, other_presence, same_output, BEHIND};
use crate::Compared;
use second::gridsamples::Grid;
use second::heights::{write_heights, NODES};
use second::heightsamples::{any_heights, row_of, with_any_heights};
use second::message::Row;
use second::random::Random;
use second::samples::Sample;
use second::vectors::antimeridian::random_grid_across;
use second::vectors::shifts::random_grid;
use tarnoklej::ffi;

/// How many kinds of rows there are.
const KINDS: u64 = 16;
/// The bytes of a 1023, and the most bytes of an output.
const LENGTH: usize = 73;
const MOST_ROOM: usize = 90;
/// The places of the fields that are tested before the heights: DF191, DF213, the origin and the spacings.
const TESTED_FIRST: [usize; 6] = [3, 60, 4, 5, 6, 7];

/// A row of a 1023 of which a message can be made.
fn sound_row(random: &mut Random) -> Row {
    let grid = match random.below(3) {
        0 => random_grid_across(random),
        1 => random_grid(random, 1023),
        _ => Grid { sample: Sample::any(random, 1023).with(194, random.within(1, 4_095)).with(195, 1) },
    };
    row_of(&grid)
}

/// The row with another value and presence byte at one place.
fn changed(mut row: Row, place: usize, value: i64, present: u8) -> Row {
    (row.values[place], row.present[place]) = (value, present);
    row
}

/// The row with one of the reasons to be refused before the heights are looked at.
fn refused_first(random: &mut Random, row: Row) -> Row {
    let place = pick(random, &TESTED_FIRST);
    match place {
        60 => changed(row, place, random.within(1, 3), 1),
        4 | 5 => changed(row, place, 0, 0),
        _ => changed(row, place, 0, 1),
    }
}

/// A row of one of the kinds, for which the wanted heights are of the right count.
fn any_row(random: &mut Random, kind: u64) -> Row {
    let row = sound_row(random);
    match kind % KINDS {
        0..=6 => with_any_heights(random, row),
        7 | 8 => refused_first(random, row),
        9 => {
            let once = refused_first(random, row);
            refused_first(random, once)
        }
        10 => {
            let place = random.below(64) as usize;
            changed(row, place, any_integer(random), 1)
        }
        11 => changed(row, pick(random, &TESTED_FIRST), any_integer(random), 1),
        12 => changed(row, random.below(64) as usize, 0, 0),
        13 => other_presence(random, row),
        14 => {
            let other = Sample::any(random, 1023);
            outside_range(random, &other).row()
        }
        _ => changed(row, 0, random.within(1_021, 1_027), 1),
    }
}

/// The buffers with one or both cut or extended, or as many heights as are not wanted.
fn other_counts(random: &mut Random, row: &mut Row, wanted: &mut Vec<i64>) {
    let count = pick(random, &[0, 1, 15, 17, 63, 65, 80]);
    let which = random.below(4);
    if which == 0 {
        wanted.resize(if count == 63 { 16 } else { count }, 0);
    }
    if which == 1 || which == 3 {
        row.values.resize(count, 1);
    }
    if which == 2 || which == 3 {
        row.present.resize(count, 1);
    }
}

/// Compares the message of sixteen wanted heights, one in twelve times with other counts.
pub fn compare_written(random: &mut Random, turn: u64) -> Compared {
    let mut row = any_row(random, turn);
    let mut wanted = any_heights(random).to_vec();
    assert_eq!(wanted.len(), NODES);
    if random.below(12) == 0 {
        other_counts(random, &mut row, &mut wanted);
    }
    let room = any_room(random, LENGTH, MOST_ROOM);
    same_written(&row, &wanted, room, random.bytes(room + BEHIND))
}

/// Compares the message of wanted heights that are given, in a buffer of some room, which may go on behind it.
pub fn same_written(row: &Row, wanted: &[i64], room: usize, before: Vec<u8>) -> Compared {
    let (values, present) = (row.values.clone().into_boxed_slice(), row.present.clone().into_boxed_slice());
    let heights: Box<[i64]> = wanted.into();
    // SAFETY: the pointers are those of slices that do not overlap, and the lengths are at most theirs.
    let call = |out| unsafe {
        ffi::tarnoklej_write_heights(
            values.as_ptr(),
            values.len(),
            present.as_ptr(),
            present.len(),
            heights.as_ptr(),
            heights.len(),
            out,
            room,
        )
    };
    let answer = write_heights(row, wanted, room);
    same_output(before, answer, call, || format!("{row:?} heights {wanted:?} room {room}"))
}
