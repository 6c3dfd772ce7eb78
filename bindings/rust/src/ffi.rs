//! The declarations of include/tarnoklej.h as they stand there, and the same calls over slices.
//!
//! Here alone stands unsafe code. The tests hold every struct and every function to the header.

/// The answer of `tarnoklej_read`.
#[repr(C)]
#[derive(Clone, Copy, PartialEq, Eq, Debug)]
pub struct Header {
    /// The refusal number, 0 where the call is done.
    pub refusal: u8,
    /// The message number, DF002.
    pub number: u16,
    /// The system identification number, DF147.
    pub sin: u8,
    /// The length in bytes.
    pub length: usize,
}

/// The answer of `tarnoklej_write_fields`, `tarnoklej_write_frame`, `tarnoklej_write_heights` and `tarnoklej_write_samples`.
#[repr(C)]
#[derive(Clone, Copy, PartialEq, Eq, Debug)]
pub struct Written {
    /// The refusal number, 0 where the call is done.
    pub refusal: u8,
    /// The length of the message, frame or file written, in bytes.
    pub length: usize,
}

/// The answer of `tarnoklej_shifts_at`.
#[repr(C)]
#[derive(Clone, Copy, PartialEq, Debug)]
pub struct Shifts {
    /// The shift north-south in arc seconds or metres, 0.0 where it is refused.
    pub north: f64,
    /// The shift east-west in arc seconds or metres, 0.0 where it is refused.
    pub east: f64,
    /// The shift of the height in metres, 0.0 where it is refused.
    pub height: f64,
    /// The shift north-south in counts, 0 where it is refused.
    pub north_count: i64,
    /// The shift east-west in counts, 0 where it is refused.
    pub east_count: i64,
    /// The shift of the height in counts, 0 where it is refused.
    pub height_count: i64,
    /// The refusal number of the shift north-south, 0 where it is answered.
    pub north_refusal: u8,
    /// The refusal number of the shift east-west, 0 where it is answered.
    pub east_refusal: u8,
    /// The refusal number of the shift of the height, 0 where it is answered.
    pub height_refusal: u8,
    /// The unit of the shift north-south: 0 refused, 1 arc seconds, 2 metres.
    pub north_unit: u8,
    /// The unit of the shift east-west: 0 refused, 1 arc seconds, 2 metres.
    pub east_unit: u8,
    /// The unit of the shift of the height: 0 refused, 1 arc seconds, 2 metres.
    pub height_unit: u8,
}

/// The answer of `tarnoklej_find`.
#[repr(C)]
#[derive(Clone, Copy, PartialEq, Eq, Debug)]
pub struct Found {
    /// The refusal number, 0 where the call is done.
    pub refusal: u8,
    /// The place of the message's first byte in the table.
    pub at: usize,
    /// The length of the message in bytes.
    pub length: usize,
    /// How many entries of the index were looked at.
    pub probes: u8,
}

/// The answer of `tarnoklej_find_frame`.
#[repr(C)]
#[derive(Clone, Copy, PartialEq, Eq, Debug)]
pub struct Frame {
    /// The refusal number, 0 where the call is done.
    pub refusal: u8,
    /// The place of the frame's D3, with NEED too.
    pub at: usize,
    /// The length of the frame's message in bytes.
    pub length: usize,
}

/// The answer of `tarnoklej_datum_step`.
#[repr(C)]
#[derive(Clone, Copy, PartialEq, Eq, Debug)]
pub struct Position {
    /// The refusal number, 0 where the call is done.
    pub refusal: u8,
    /// The X coordinate in units of 0.1 mm.
    pub x: i64,
    /// The Y coordinate in units of 0.1 mm.
    pub y: i64,
    /// The Z coordinate in units of 0.1 mm.
    pub z: i64,
}

/// The answer of `tarnoklej_report_points`.
#[repr(C)]
#[derive(Clone, Copy, PartialEq, Eq, Debug)]
pub struct Report {
    /// The refusal number, 0 where the call is done.
    pub refusal: u8,
    /// Points answered.
    pub answered: u64,
    /// Points refused under each number from 1 to 15.
    pub refused: [u64; 15],
    /// The smallest count.
    pub smallest: i64,
    /// The greatest count.
    pub greatest: i64,
    /// The first place of the smallest count, from 1.
    pub smallest_place: u64,
    /// The first place of the greatest count, from 1.
    pub greatest_place: u64,
    /// The sum of the counts.
    pub sum: i64,
}

/// The answer of `tarnoklej_check_samples`.
#[repr(C)]
#[derive(Clone, Copy, PartialEq, Eq, Debug)]
pub struct Checked {
    /// The refusal number, 0 where the file is accepted.
    pub refusal: u8,
    /// The place of the first bad point, from 1, with CLAIM.
    pub place: usize,
}

extern "C" {
    /// Gives number, length and system identification number of a message.
    pub fn tarnoklej_read(message: *const u8, message_length: usize) -> Header;
    /// Gives the row of a message, values and whether each is present.
    pub fn tarnoklej_read_fields(
        message: *const u8,
        message_length: usize,
        values: *mut i64,
        values_room: usize,
        present: *mut u8,
        present_room: usize,
    ) -> u8;
    /// Writes the message of a row.
    pub fn tarnoklej_write_fields(
        values: *const i64,
        values_count: usize,
        present: *const u8,
        present_count: usize,
        out: *mut u8,
        room: usize,
    ) -> Written;
    /// Gives the shifts of the three components at a position.
    pub fn tarnoklej_shifts_at(message: *const u8, message_length: usize, north: i64, east: i64) -> Shifts;
    /// Fills a row with the counts of one component at equal steps east.
    pub fn tarnoklej_shift_row(
        message: *const u8,
        message_length: usize,
        component: u8,
        north: i64,
        east: i64,
        step: i64,
        count: usize,
        row: *mut i64,
        room: usize,
    ) -> u8;
    /// Gives the first frame at or after a place.
    pub fn tarnoklej_find_frame(bytes: *const u8, size: usize, from: usize) -> Frame;
    /// Writes the frame of a message.
    pub fn tarnoklej_write_frame(message: *const u8, message_length: usize, out: *mut u8, room: usize) -> Written;
    /// Says whether a table and an index agree.
    pub fn tarnoklej_index_agrees(table: *const u8, size: usize, index: *const u8, index_size: usize) -> u8;
    /// Writes the index of a table anew.
    pub fn tarnoklej_index_write(table: *const u8, size: usize, index: *mut u8, index_size: usize) -> u8;
    /// Stores an owner's message under its key.
    pub fn tarnoklej_store(
        table: *mut u8,
        size: usize,
        index: *mut u8,
        index_size: usize,
        owner: u8,
        message: *const u8,
        message_length: usize,
    ) -> u8;
    /// Gives where the message of an owner's key stands in the table.
    pub fn tarnoklej_find(
        table: *const u8,
        size: usize,
        index: *const u8,
        index_size: usize,
        owner: u8,
        sin: u8,
        group: u8,
    ) -> Found;
    /// Removes the message of an owner's key.
    pub fn tarnoklej_remove(
        table: *mut u8,
        size: usize,
        index: *mut u8,
        index_size: usize,
        owner: u8,
        sin: u8,
        group: u8,
    ) -> u8;
    /// Gives the position in the target datum of a message 1021.
    pub fn tarnoklej_datum_step(message: *const u8, message_length: usize, x: i64, y: i64, z: i64) -> Position;
    /// Writes the message of sixteen wanted heights.
    pub fn tarnoklej_write_heights(
        values: *const i64,
        values_count: usize,
        present: *const u8,
        present_count: usize,
        wanted: *const i64,
        wanted_count: usize,
        out: *mut u8,
        room: usize,
    ) -> Written;
    /// Gives the numbers of one component over many points.
    pub fn tarnoklej_report_points(
        message: *const u8,
        message_length: usize,
        component: u8,
        north: *const i64,
        north_count: usize,
        east: *const i64,
        east_count: usize,
    ) -> Report;
    /// Writes a file of sample answers.
    pub fn tarnoklej_write_samples(
        message: *const u8,
        message_length: usize,
        components: *const u8,
        components_count: usize,
        north: *const i64,
        north_count: usize,
        east: *const i64,
        east_count: usize,
        out: *mut u8,
        room: usize,
    ) -> Written;
    /// Checks a file of sample answers.
    pub fn tarnoklej_check_samples(file: *const u8, size: usize) -> Checked;
}

// The calls over slices. A slice's pointer is never null and its length is its memory's, and a slice lent for writing
// overlaps no other: that is all that the header asks of a caller, so each call below is sound.

/// See [`tarnoklej_read`].
pub(crate) fn read(message: &[u8]) -> Header {
    // SAFETY: see above.
    unsafe { tarnoklej_read(message.as_ptr(), message.len()) }
}

/// See [`tarnoklej_read_fields`].
pub(crate) fn read_fields(message: &[u8], values: &mut [i64], present: &mut [u8]) -> u8 {
    let (values_room, present_room) = (values.len(), present.len());
    let (values, present) = (values.as_mut_ptr(), present.as_mut_ptr());
    // SAFETY: see above.
    unsafe { tarnoklej_read_fields(message.as_ptr(), message.len(), values, values_room, present, present_room) }
}

/// See [`tarnoklej_write_fields`].
pub(crate) fn write_fields(values: &[i64], present: &[u8], out: &mut [u8]) -> Written {
    let (out, room) = (out.as_mut_ptr(), out.len());
    // SAFETY: see above.
    unsafe { tarnoklej_write_fields(values.as_ptr(), values.len(), present.as_ptr(), present.len(), out, room) }
}

/// See [`tarnoklej_shifts_at`].
pub(crate) fn shifts_at(message: &[u8], north: i64, east: i64) -> Shifts {
    // SAFETY: see above.
    unsafe { tarnoklej_shifts_at(message.as_ptr(), message.len(), north, east) }
}

/// See [`tarnoklej_shift_row`]; every place of the row is asked for.
pub(crate) fn shift_row(message: &[u8], component: u8, north: i64, east: i64, step: i64, row: &mut [i64]) -> u8 {
    let (row, count) = (row.as_mut_ptr(), row.len());
    // SAFETY: see above.
    unsafe { tarnoklej_shift_row(message.as_ptr(), message.len(), component, north, east, step, count, row, count) }
}

/// See [`tarnoklej_find_frame`].
pub(crate) fn find_frame(bytes: &[u8], from: usize) -> Frame {
    // SAFETY: see above.
    unsafe { tarnoklej_find_frame(bytes.as_ptr(), bytes.len(), from) }
}

/// See [`tarnoklej_write_frame`].
pub(crate) fn write_frame(message: &[u8], out: &mut [u8]) -> Written {
    // SAFETY: see above.
    unsafe { tarnoklej_write_frame(message.as_ptr(), message.len(), out.as_mut_ptr(), out.len()) }
}

/// See [`tarnoklej_index_agrees`].
pub(crate) fn index_agrees(table: &[u8], index: &[u8]) -> u8 {
    // SAFETY: see above.
    unsafe { tarnoklej_index_agrees(table.as_ptr(), table.len(), index.as_ptr(), index.len()) }
}

/// See [`tarnoklej_index_write`].
pub(crate) fn index_write(table: &[u8], index: &mut [u8]) -> u8 {
    // SAFETY: see above.
    unsafe { tarnoklej_index_write(table.as_ptr(), table.len(), index.as_mut_ptr(), index.len()) }
}

/// See [`tarnoklej_store`].
pub(crate) fn store(table: &mut [u8], index: &mut [u8], owner: u8, message: &[u8]) -> u8 {
    let (size, index_size) = (table.len(), index.len());
    let (table, index) = (table.as_mut_ptr(), index.as_mut_ptr());
    // SAFETY: see above.
    unsafe { tarnoklej_store(table, size, index, index_size, owner, message.as_ptr(), message.len()) }
}

/// See [`tarnoklej_find`].
pub(crate) fn find(table: &[u8], index: &[u8], owner: u8, sin: u8, group: u8) -> Found {
    // SAFETY: see above.
    unsafe { tarnoklej_find(table.as_ptr(), table.len(), index.as_ptr(), index.len(), owner, sin, group) }
}

/// See [`tarnoklej_remove`].
pub(crate) fn remove(table: &mut [u8], index: &mut [u8], owner: u8, sin: u8, group: u8) -> u8 {
    // SAFETY: see above.
    unsafe { tarnoklej_remove(table.as_mut_ptr(), table.len(), index.as_mut_ptr(), index.len(), owner, sin, group) }
}

/// See [`tarnoklej_datum_step`].
pub(crate) fn datum_step(message: &[u8], x: i64, y: i64, z: i64) -> Position {
    // SAFETY: see above.
    unsafe { tarnoklej_datum_step(message.as_ptr(), message.len(), x, y, z) }
}

/// See [`tarnoklej_write_heights`].
pub(crate) fn write_heights(values: &[i64], present: &[u8], wanted: &[i64], out: &mut [u8]) -> Written {
    let (values_count, present_count, wanted_count) = (values.len(), present.len(), wanted.len());
    let (values, present, wanted) = (values.as_ptr(), present.as_ptr(), wanted.as_ptr());
    let (out, room) = (out.as_mut_ptr(), out.len());
    // SAFETY: see above.
    unsafe { tarnoklej_write_heights(values, values_count, present, present_count, wanted, wanted_count, out, room) }
}

/// See [`tarnoklej_report_points`].
pub(crate) fn report_points(message: &[u8], component: u8, north: &[i64], east: &[i64]) -> Report {
    let (north_count, east_count) = (north.len(), east.len());
    let (north, east) = (north.as_ptr(), east.as_ptr());
    // SAFETY: see above.
    unsafe { tarnoklej_report_points(message.as_ptr(), message.len(), component, north, north_count, east, east_count) }
}

/// See [`tarnoklej_write_samples`].
pub(crate) fn write_samples(message: &[u8], components: &[u8], north: &[i64], east: &[i64], out: &mut [u8]) -> Written {
    // SAFETY: see above.
    unsafe {
        tarnoklej_write_samples(
            message.as_ptr(),
            message.len(),
            components.as_ptr(),
            components.len(),
            north.as_ptr(),
            north.len(),
            east.as_ptr(),
            east.len(),
            out.as_mut_ptr(),
            out.len(),
        )
    }
}

/// See [`tarnoklej_check_samples`].
pub(crate) fn check_samples(file: &[u8]) -> Checked {
    // SAFETY: see above.
    unsafe { tarnoklej_check_samples(file.as_ptr(), file.len()) }
}
