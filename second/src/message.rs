//! Reading and writing one message by document 01, refusals 1 to 7, a field being a value or none (document 02, A5).

use crate::bits::{BitReader, BitWriter};
use crate::fields::{by_df, Field, Reading};
use crate::layouts::{layout, Part};
use crate::refusal::Refusal;

/// The width of DF002, with which every message begins.
pub const NUMBER_WIDTH: u32 = 12;

/// A row: two buffers side by side, the values of the fields and whether each is present.
#[derive(Clone, PartialEq, Eq, Debug)]
pub struct Row {
    /// The values, 0 where a field has none.
    pub values: Vec<i64>,
    /// 1 where the field has a value, 0 where it has none.
    pub present: Vec<u8>,
}

impl Row {
    /// The row of fields in wire order.
    pub fn of(readings: &[Reading]) -> Row {
        Row {
            values: readings.iter().map(|reading| reading.unwrap_or(0)).collect(),
            present: readings.iter().map(|reading| reading.is_some() as u8).collect(),
        }
    }

    /// What each place says, or nothing where the buffers are no row.
    fn readings(&self) -> Option<Vec<Reading>> {
        let as_many = self.values.len() == self.present.len();
        let places = self.values.iter().zip(&self.present);
        as_many.then(|| places.map(|(&value, &present)| place_of(value, present)).collect())?
    }
}

/// What one place of a row says, or nothing where its two numbers are no place.
pub fn place_of(value: i64, present: u8) -> Option<Reading> {
    match (present, value) {
        (1, _) => Some(Some(value)),
        (0, 0) => Some(None),
        _ => None,
    }
}

/// An accepted message.
#[derive(Clone, PartialEq, Eq, Debug)]
pub struct Message {
    /// The message number, DF002.
    pub number: u16,
    /// The length in bytes.
    pub length: usize,
    /// Every field in wire order: DF number and what the field says.
    pub fields: Vec<(u16, Reading)>,
}

impl Message {
    /// What the fields say in wire order, DF002 first.
    pub fn all_readings(&self) -> Vec<Reading> {
        self.fields.iter().map(|&(_, reading)| reading).collect()
    }

    /// The row of the message.
    pub fn row(&self) -> Row {
        Row::of(&self.all_readings())
    }

    /// What a field says that stands once.
    pub fn reading(&self, df: u16) -> Reading {
        self.readings(df)[0]
    }

    /// What a field says that stands many times, in wire order.
    pub fn readings(&self, df: u16) -> Vec<Reading> {
        self.fields.iter().filter(|f| f.0 == df).map(|f| f.1).collect()
    }

    /// The number of a field that stands once and always has a value.
    pub fn number_in(&self, df: u16) -> i64 {
        self.reading(df).expect("an unsigned field has a value")
    }

    /// The system identification number, DF147.
    pub fn sin(&self) -> u8 {
        self.number_in(147) as u8
    }
}

/// Reads a message, with refusals 1 to 5 in order.
pub fn read(bytes: &[u8]) -> Result<Message, Refusal> {
    if bytes.len() < 2 {
        return Err(Refusal::Short);
    }
    let number = BitReader::new(bytes).unsigned(NUMBER_WIDTH).ok_or(Refusal::Short)?;
    let parts = layout(number).ok_or(Refusal::Number)?;
    let bits = bits_called_for(bytes, parts).ok_or(Refusal::Length)?;
    if bits.div_ceil(8) != bytes.len() {
        return Err(Refusal::Length);
    }
    if fill_is_set(bytes, bits) {
        return Err(Refusal::Fill);
    }
    let fields = read_fields(bytes, parts);
    if fields.iter().any(|&(df, reading)| !by_df(df).can_be(reading)) {
        return Err(Refusal::Range);
    }
    Ok(Message { number: number as u16, length: bytes.len(), fields })
}

/// The number of bits the layout calls for, or none where a name counter cannot be read.
fn bits_called_for(bytes: &[u8], parts: &[Part]) -> Option<usize> {
    let mut reader = BitReader::new(bytes);
    for part in parts {
        match *part {
            Part::One(df) => reader.skip(by_df(df).width as usize),
            Part::Name { counter, character } => {
                let characters = reader.unsigned(by_df(counter).width)? as usize;
                reader.skip(characters * by_df(character).width as usize);
            }
            Part::SixteenPoints(three) => {
                let one_point: u32 = three.iter().map(|&df| by_df(df).width).sum();
                reader.skip(16 * one_point as usize);
            }
        }
    }
    Some(reader.position())
}

/// Whether a bit behind the last field is set.
fn fill_is_set(bytes: &[u8], bits: usize) -> bool {
    let mut reader = BitReader::new(bytes);
    reader.skip(bits);
    reader.rest_is_set()
}

/// Reads every field of a message that has the length called for.
fn read_fields(bytes: &[u8], parts: &[Part]) -> Vec<(u16, Reading)> {
    let mut reader = BitReader::new(bytes);
    let mut fields = Vec::new();
    for part in parts {
        match *part {
            Part::One(df) => fields.push((df, read_one(&mut reader, df))),
            Part::Name { counter, character } => {
                let characters = read_one(&mut reader, counter);
                fields.push((counter, characters));
                let count = characters.expect("a counter has a value");
                (0..count).for_each(|_| fields.push((character, read_one(&mut reader, character))));
            }
            Part::SixteenPoints(three) => {
                (0..16).for_each(|_| three.iter().for_each(|&df| fields.push((df, read_one(&mut reader, df)))));
            }
        }
    }
    fields
}

/// Reads one field.
fn read_one(reader: &mut BitReader, df: u16) -> Reading {
    let field = by_df(df);
    let number = if field.signed() { reader.signed(field.width) } else { reader.unsigned(field.width) };
    field.reading(number.expect("the length was checked"))
}

/// Writes a row, with RANGE and then ROOM.
pub fn write_row(row: &Row, room: usize) -> Result<Vec<u8>, Refusal> {
    write_readings(&row.readings().ok_or(Refusal::Range)?, room)
}

/// Writes fields in wire order, with RANGE and then ROOM.
pub fn write_readings(readings: &[Reading], room: usize) -> Result<Vec<u8>, Refusal> {
    let fields = fields_of(readings).ok_or(Refusal::Range)?;
    if fields.iter().any(|(field, reading)| !field.can_be(*reading)) {
        return Err(Refusal::Range);
    }
    let bytes = bytes_of(&fields);
    if bytes.len() > room {
        Err(Refusal::Room)
    } else {
        Ok(bytes)
    }
}

/// Each reading with its field, or none where there are not as many as the layout has fields.
fn fields_of(readings: &[Reading]) -> Option<Vec<(&'static Field, Reading)>> {
    let parts = layout((*readings.first()?)?)?;
    let mut rest = readings.iter().copied();
    let mut fields = Vec::new();
    for part in parts {
        match *part {
            Part::One(df) => fields.push((by_df(df), rest.next()?)),
            Part::Name { counter, character } => {
                let characters = rest.next()?;
                if !by_df(counter).can_be(characters) {
                    return None;
                }
                fields.push((by_df(counter), characters));
                for _ in 0..characters? {
                    fields.push((by_df(character), rest.next()?));
                }
            }
            Part::SixteenPoints(three) => {
                for _ in 0..16 {
                    for df in three {
                        fields.push((by_df(df), rest.next()?));
                    }
                }
            }
        }
    }
    rest.next().is_none().then_some(fields)
}

/// The bytes of fields that can all have their readings.
fn bytes_of(fields: &[(&Field, Reading)]) -> Vec<u8> {
    let mut writer = BitWriter::default();
    for (field, reading) in fields {
        writer.number(field.sent(*reading).expect("a reading that the field can have"), field.width);
    }
    writer.into_bytes()
}

/// The six kinds of records, by the message numbers that each holds.
pub const KINDS: [&[u16]; 6] = [&[1021], &[1022], &[1023, 1024], &[1025], &[1026], &[1027]];

/// Reads a message of one kind, with refusals 1 to 5 and then KIND.
pub fn read_kind(bytes: &[u8], kind: usize) -> Result<Message, Refusal> {
    let message = read(bytes)?;
    if KINDS[kind].contains(&message.number) {
        Ok(message)
    } else {
        Err(Refusal::Kind)
    }
}
