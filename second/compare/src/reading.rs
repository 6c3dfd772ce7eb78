//! Compares reading: the header and the row of a message.

use crate::{messages, same, Compared};
use second::hex::hex;
use second::message::{read, Row};
use second::random::Random;
use second::refusal::{number_of, Refusal};
use tarnoklej::ffi;

/// The most places of a buffer that is read into, some more than the longest row has.
const MOST_ROOM: usize = 96;
/// The places behind a buffer that must stay as they were.
const BEHIND: usize = 4;

/// Compares the header of one message.
pub fn compare_header(random: &mut Random, turn: u64) -> Compared {
    same_header(&messages::of_kind(random, turn).into_boxed_slice())
}

/// Compares the header of a message that is given.
pub fn same_header(bytes: &[u8]) -> Compared {
    let second = match read(bytes) {
        Ok(message) => ffi::Header { refusal: 0, number: message.number, sin: message.sin(), length: message.length },
        Err(refusal) => ffi::Header { refusal: refusal.number(), number: 0, sin: 0, length: 0 },
    };
    // SAFETY: the pointer and the length are those of a slice.
    let library = unsafe { ffi::tarnoklej_read(bytes.as_ptr(), bytes.len()) };
    same(second.refusal, library, second, || hex(bytes))
}

/// The second program's row of a message for rooms of places in the two buffers.
fn row_of(bytes: &[u8], rooms: [usize; 2]) -> Result<Row, Refusal> {
    let row = read(bytes)?.row();
    if rooms.into_iter().any(|room| row.values.len() > room) {
        Err(Refusal::Room)
    } else {
        Ok(row)
    }
}

/// Compares the row of one message, what was in both buffers before being random.
pub fn compare_row(random: &mut Random, turn: u64) -> Compared {
    let bytes = messages::of_kind(random, turn).into_boxed_slice();
    let needed = read(&bytes).map_or(8, |message| message.fields.len());
    let rooms = any_rooms(random, needed);
    let values: Vec<i64> = (0..rooms[0] + BEHIND).map(|_| random.bits() as i64).collect();
    same_row(&bytes, rooms, Row { values, present: random.bytes(rooms[1] + BEHIND) })
}

/// Compares the row of a message that is given, for rooms of places in two buffers, which may go on behind them.
pub fn same_row(bytes: &[u8], rooms: [usize; 2], before: Row) -> Compared {
    let answer = row_of(bytes, rooms);
    let mut second = before.clone();
    if let Ok(row) = &answer {
        second.values[..row.values.len()].copy_from_slice(&row.values);
        second.present[..row.present.len()].copy_from_slice(&row.present);
    }
    let mut library = before;
    let (values, present) = (library.values.as_mut_ptr(), library.present.as_mut_ptr());
    // SAFETY: the pointers are those of slices that do not overlap, and the lengths are at most theirs.
    let refusal =
        unsafe { ffi::tarnoklej_read_fields(bytes.as_ptr(), bytes.len(), values, rooms[0], present, rooms[1]) };
    let expected = number_of(&answer);
    same(expected, (refusal, library), (expected, second), || format!("{} rooms {rooms:?}", hex(bytes)))
}

/// The rooms of the two buffers, which are often the same or one of which is often just enough.
fn any_rooms(random: &mut Random, needed: usize) -> [usize; 2] {
    let room = messages::any_room(random, needed, MOST_ROOM);
    match random.below(4) {
        0 => [room, needed],
        1 => [needed, room],
        2 => [room, messages::any_room(random, needed, MOST_ROOM)],
        _ => [room, room],
    }
}
