//! Compares writing: the bytes of a row.

use crate::messages::{any_room, any_sample, outside_range, pick, place};
use crate::{same, Compared};
use second::fields::by_df;
use second::message::{write_row, Row};
use second::random::Random;
use second::refusal::{number_of, Refusal};
use second::samples::{too_wide, Sample};
use tarnoklej::ffi;

/// The most bytes of an output, some more than the longest message has.
const MOST_ROOM: usize = 140;
/// The bytes behind an output that must stay as they were.
pub const BEHIND: usize = 8;
/// How many kinds of rows there are.
const KINDS: u64 = 16;

/// A row of one of the kinds.
fn any_row(random: &mut Random, kind: u64) -> Row {
    let sample = any_sample(random);
    match kind % KINDS {
        0..=4 => sample.row(),
        5 => outside_range(random, &sample).row(),
        6 => outside_width(random, &sample).row(),
        7 => wrong_count(random, sample.row()),
        8 => other_counter(random, &sample).row(),
        9 => other_number(random, &sample).row(),
        10 => present_pattern(random, &sample).row(),
        11 => unsigned_none(random, &sample).row(),
        12 => none_with_value(random, sample.row()),
        13 => other_presence(random, sample.row()),
        14 => different_counts(random, sample.row()),
        _ => any_buffers(random),
    }
}

/// The row with one field that has a value equal to the pattern that is sent for none, where it has a signed field.
fn present_pattern(random: &mut Random, sample: &Sample) -> Sample {
    let at = pick(random, &places(sample, true));
    sample.with_at(at, by_df(sample.dfs[at]).not_available())
}

/// The row with one unsigned field that has no value.
fn unsigned_none(random: &mut Random, sample: &Sample) -> Sample {
    let at = pick(random, &places(sample, false));
    sample.with_at(at, None)
}

/// The places of the signed or of the unsigned fields.
fn places(sample: &Sample, signed: bool) -> Vec<usize> {
    (0..sample.dfs.len()).filter(|&at| by_df(sample.dfs[at]).signed() == signed).collect()
}

/// The row with one place that has no value and a number beside it that is not 0, or is by chance.
fn none_with_value(random: &mut Random, mut row: Row) -> Row {
    let at = place(random, &row.values);
    row.present[at] = 0;
    row.values[at] = match random.below(3) {
        0 => row.values[at],
        1 => random.within(-1, 1),
        _ => any_integer(random),
    };
    row
}

/// The row with presence bytes from 2 to 255 at one place or at some.
pub fn other_presence(random: &mut Random, mut row: Row) -> Row {
    let at = place(random, &row.present);
    row.present[at] = random.within(2, 255) as u8;
    if random.below(3) == 0 {
        let end = at + 1 + random.below(4) as usize;
        row.present.iter_mut().take(end).skip(at).for_each(|byte| *byte = random.within(2, 255) as u8);
    }
    row
}

/// The row with one of its buffers cut or extended.
fn different_counts(random: &mut Random, mut row: Row) -> Row {
    let count = row.values.len();
    let other = match random.below(4) {
        0 => count - 1,
        1 => count + 1,
        _ => random.below(100) as usize,
    };
    if random.below(2) == 0 {
        row.values.resize(other, 0);
    } else {
        row.present.resize(other, 1);
    }
    row
}

/// Two buffers of any numbers, mostly of the same count.
fn any_buffers(random: &mut Random) -> Row {
    let count = random.below(100) as usize;
    let values = (0..count).map(|_| any_integer(random)).collect();
    let presents = if random.below(4) == 0 { random.below(100) as usize } else { count };
    Row { values, present: (0..presents).map(|_| pick(random, &[1, 1, 1, 0, 2, 255])).collect() }
}

/// Any number of 64 bits, often a small one or one at the ends.
pub fn any_integer(random: &mut Random) -> i64 {
    match random.below(6) {
        0 => i64::MIN,
        1 => i64::MAX,
        2 => random.within(-2, 40),
        3 => random.within(1_015, 1_033),
        _ => random.bits() as i64,
    }
}

/// The row with one value that does not fit its field's width.
fn outside_width(random: &mut Random, sample: &Sample) -> Sample {
    let at = place(random, &sample.dfs);
    let values = too_wide(by_df(sample.dfs[at]));
    let value = match random.below(2) {
        0 => values[place(random, &values)].1,
        _ => any_integer(random),
    };
    sample.with_at(at, value)
}

/// The row with some places too few or too many.
fn wrong_count(random: &mut Random, mut row: Row) -> Row {
    if random.below(2) == 0 {
        let length = place(random, &row.values);
        row.values.truncate(length);
        row.present.truncate(length);
    } else {
        let more = 1 + random.below(70);
        row.values.extend((0..more).map(|_| random.within(0, 1)));
        row.present.resize(row.values.len(), 1);
    }
    row
}

/// The row with another value where a name counter stands, or in its second place.
fn other_counter(random: &mut Random, sample: &Sample) -> Sample {
    let at = match random.below(2) {
        0 if sample.number <= 1022 => sample.place(145),
        _ => 1,
    };
    let value = sample.readings[at].expect("an unsigned field has a value") + random.within(-3, 3);
    sample.with_at(at, value)
}

/// The row under another message number.
fn other_number(random: &mut Random, sample: &Sample) -> Sample {
    let number = match random.below(3) {
        0 => any_integer(random),
        1 => sample.number as i64 + 4_096 * random.within(-1, 1),
        _ => random.within(1_020, 1_028),
    };
    sample.with_at(0, number)
}

/// Compares the bytes of one row.
pub fn compare_written(random: &mut Random, turn: u64) -> Compared {
    let row = any_row(random, turn);
    let needed = write_row(&row, usize::MAX).map_or(25, |bytes| bytes.len());
    let room = any_room(random, needed, MOST_ROOM);
    same_written(&row, room, random.bytes(room + BEHIND))
}

/// Compares the bytes of a row that is given, in a buffer of some room, which may go on behind it.
pub fn same_written(row: &Row, room: usize, before: Vec<u8>) -> Compared {
    let (values, present) = (row.values.clone().into_boxed_slice(), row.present.clone().into_boxed_slice());
    // SAFETY: the pointers are those of slices that do not overlap, and the lengths are at most theirs.
    let call = |out| unsafe {
        ffi::tarnoklej_write_fields(values.as_ptr(), values.len(), present.as_ptr(), present.len(), out, room)
    };
    same_output(before, write_row(row, room), call, || format!("{row:?} room {room}"))
}

/// Compares what a call writes into a buffer that held some bytes before.
pub fn same_output(
    before: Vec<u8>,
    answer: Result<Vec<u8>, Refusal>,
    call: impl FnOnce(*mut u8) -> ffi::Written,
    input: impl Fn() -> String,
) -> Compared {
    let refusal = number_of(&answer);
    let bytes = answer.unwrap_or_default();
    let mut second = before.clone();
    second[..bytes.len()].copy_from_slice(&bytes);
    let mut library = before;
    let written = call(library.as_mut_ptr());
    let expected = ffi::Written { refusal, length: bytes.len() };
    same(refusal, (written, library), (expected, second), input)
}
