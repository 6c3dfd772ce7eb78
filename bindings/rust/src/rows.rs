//! Messages as rows: reading and writing the fields of a message in wire order.

use crate::{ffi, Group, Refusal, MOST_BYTES, MOST_FIELDS};

/// What stands at the head of an accepted message.
#[derive(Clone, Copy, PartialEq, Eq, Hash, Debug)]
pub struct Header {
    /// The message number, DF002.
    pub number: u16,
    /// The length in bytes.
    pub length: usize,
    /// The system identification number, DF147.
    pub sin: u8,
}

impl Header {
    /// The group under which a table keeps the message.
    pub fn group(&self) -> Group {
        Group::of_message(self.number).expect("an accepted message is one of 1021 to 1027")
    }
}

/// The number that stands in the first 12 bits of a message of any number, DF002, or nothing where it has under 2 bytes.
///
/// ```
/// assert_eq!(tarnoklej::message_number(&[0x3e, 0xd0]), Some(1005));
/// assert_eq!(tarnoklej::message_number(&[0x3e]), None);
/// ```
pub fn message_number(message: &[u8]) -> Option<u16> {
    match message {
        [first, second, ..] => Some(u16::from(*first) << 4 | u16::from(*second) >> 4),
        _ => None,
    }
}

/// Gives number, length and system identification number of a message after all of its fields are checked.
///
/// Refusals: SHORT, NUMBER, LENGTH, FILL, RANGE.
///
/// ```
/// use tarnoklej::{read, Header, Refusal};
///
/// let mut message = vec![0x40, 0x10, 0x50];
/// message.resize(25, 0);
/// assert_eq!(read(&message), Ok(Header { number: 1025, length: 25, sin: 5 }));
/// assert_eq!(read(&message[..24]), Err(Refusal::Length));
/// ```
pub fn read(message: &[u8]) -> Result<Header, Refusal> {
    let header = ffi::read(message);
    Refusal::unless_done(header.refusal)?;
    Ok(Header { number: header.number, length: header.length, sin: header.sin })
}

/// Gives the row of a message; see [`Message`](crate::Message) for fields with names and units.
///
/// Refusals: SHORT, NUMBER, LENGTH, FILL, RANGE.
///
/// ```
/// // A 1025 whose false northing (DF175), the last field, is not available.
/// let mut message = vec![0x40, 0x10, 0x50];
/// message.resize(25, 0);
/// message[20] = 0x40;
/// let mut row = [1025, 5, 0, 0, 0, 0, 0, 0].map(Some);
/// row[7] = None;
/// assert_eq!(tarnoklej::read_fields(&message), Ok(row.to_vec()));
/// ```
pub fn read_fields(message: &[u8]) -> Result<Vec<Option<i64>>, Refusal> {
    let mut fields = vec![None; MOST_FIELDS];
    let count = read_fields_into(message, &mut fields)?;
    fields.truncate(count);
    Ok(fields)
}

/// Puts the fields of a message into the first places of a row, keeps the rest, and gives their count.
///
/// Refusals: SHORT, NUMBER, LENGTH, FILL, RANGE, ROOM; with a refusal the row stays as it was.
///
/// ```
/// use tarnoklej::{read_fields_into, Refusal};
///
/// let mut message = vec![0x40, 0x10, 0x50];
/// message.resize(25, 0);
/// let mut row = [Some(-1); 10];
/// assert_eq!(read_fields_into(&message, &mut row), Ok(8));
/// assert_eq!(row, [1025, 5, 0, 0, 0, 0, 0, 0, -1, -1].map(Some));
/// assert_eq!(read_fields_into(&message, &mut row[..7]), Err(Refusal::Room));
/// ```
pub fn read_fields_into(message: &[u8], fields: &mut [Option<i64>]) -> Result<usize, Refusal> {
    let (mut values, mut present) = ([0; MOST_FIELDS], [0; MOST_FIELDS]);
    let room = fields.len().min(MOST_FIELDS);
    Refusal::unless_done(ffi::read_fields(message, &mut values[..room], &mut present[..room]))?;
    let count = field_count(&values);
    for (field, place) in fields.iter_mut().zip(0..count) {
        *field = (present[place] == 1).then_some(values[place]);
    }
    Ok(count)
}

/// The count of fields of an accepted message, whose values are given.
fn field_count(values: &[i64]) -> usize {
    let names = || {
        let source = values[1] as usize;
        source + values[2 + source] as usize
    };
    match values[0] {
        1021 => 25 + names(),
        1022 => 28 + names(),
        1023 | 1024 => 64,
        1025 => 8,
        1026 => 9,
        _ => 11,
    }
}

/// A row as the two buffers that the library takes, with one field more than a row has at most, so that every longer row can be
/// passed as one of so many fields.
pub(crate) struct Buffers {
    values: [i64; MOST_FIELDS + 1],
    present: [u8; MOST_FIELDS + 1],
    count: usize,
}

impl Buffers {
    /// The buffers of a row.
    pub(crate) fn of(fields: &[Option<i64>]) -> Self {
        let count = fields.len().min(MOST_FIELDS + 1);
        let mut buffers = Buffers { values: [0; MOST_FIELDS + 1], present: [0; MOST_FIELDS + 1], count };
        for (place, field) in fields[..count].iter().enumerate() {
            buffers.values[place] = field.unwrap_or(0);
            buffers.present[place] = u8::from(field.is_some());
        }
        buffers
    }

    /// The values, 0 where there is none.
    pub(crate) fn values(&self) -> &[i64] {
        &self.values[..self.count]
    }

    /// 1 for each value that is there, else 0.
    pub(crate) fn present(&self) -> &[u8] {
        &self.present[..self.count]
    }
}

/// The first bytes of an output, where the call that wrote it is done.
pub(crate) fn written(mut out: Vec<u8>, length: Result<usize, Refusal>) -> Result<Vec<u8>, Refusal> {
    out.truncate(length?);
    Ok(out)
}

/// The length of what was written, where the call is done.
pub(crate) fn length_of(written: ffi::Written) -> Result<usize, Refusal> {
    Refusal::unless_done(written.refusal)?;
    Ok(written.length)
}

/// Gives the message of a row.
///
/// Refusals: RANGE (a wrong count of fields, a `None` in a field that is not of type intN, and a value equal to the
/// pattern that is sent for `None` included).
///
/// ```
/// use tarnoklej::{write_fields, Refusal};
///
/// let mut row = [1025, 5, 0, 0, 0, 0, 0, 0].map(Some);
/// let message = write_fields(&row)?;
/// assert_eq!((message.len(), &message[..4]), (25, &[0x40, 0x10, 0x50, 0][..]));
///
/// row[7] = None;
/// assert_eq!(write_fields(&row)?[20], 0x40);
/// row[7] = Some(-17_179_869_184);
/// assert_eq!(write_fields(&row), Err(Refusal::Range));
/// # Ok::<(), Refusal>(())
/// ```
pub fn write_fields(fields: &[Option<i64>]) -> Result<Vec<u8>, Refusal> {
    let mut out = vec![0; MOST_BYTES];
    let length = write_fields_into(fields, &mut out);
    written(out, length)
}

/// Writes the message of a row into the first bytes of a buffer, keeps the rest, and gives its length.
///
/// Refusals: RANGE as [`write_fields`] gives it, ROOM; with a refusal the buffer stays as it was.
///
/// ```
/// use tarnoklej::{write_fields_into, Refusal, MOST_BYTES};
///
/// let mut out = [0xff; MOST_BYTES];
/// let row = [1025, 5, 0, 0, 0, 0, 0, 0].map(Some);
/// assert_eq!(write_fields_into(&row, &mut out), Ok(25));
/// assert_eq!(out[..4], [0x40, 0x10, 0x50, 0]);
/// assert_eq!(out[25], 0xff);
/// assert_eq!(write_fields_into(&row, &mut out[..24]), Err(Refusal::Room));
/// ```
pub fn write_fields_into(fields: &[Option<i64>], out: &mut [u8]) -> Result<usize, Refusal> {
    let row = Buffers::of(fields);
    length_of(ffi::write_fields(row.values(), row.present(), out))
}
