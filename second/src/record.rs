//! Records: names with a length and 31 characters, and every other field by its DF number.

use crate::fields::{by_df, Reading};
use crate::hex::hex;
use crate::layouts::fields_in_order;
use crate::message::{read_kind, write_readings, Message, Row, KINDS};
use crate::refusal::Refusal;

/// The most characters a name has.
pub const NAME_ROOM: usize = 31;
/// The kind of the records of 1023 and 1024.
pub const GRID_KIND: usize = 2;
/// The unsigned easting of a 1024, whose place in a grid record is that of 1023's signed longitude.
const EASTING: u16 = 203;

/// A name whose unused characters are zero.
#[derive(Clone, PartialEq, Eq, Debug)]
pub struct Name {
    /// How many characters are used.
    pub length: usize,
    /// The characters, zero behind the used ones.
    pub characters: [u8; NAME_ROOM],
}

/// What an accepted message says.
#[derive(Clone, PartialEq, Eq, Debug)]
pub struct Record {
    /// The place of the record's kind among the six.
    pub kind: usize,
    /// The source name and the target name, of 1021 and 1022 only.
    pub names: Option<[Name; 2]>,
    /// Every field that is not part of a name, in wire order, DF002 first.
    pub fields: Vec<(u16, Reading)>,
}

/// Whether a data field is part of a name.
fn of_a_name(df: u16) -> bool {
    (143..=146).contains(&df)
}

/// The name of some characters.
fn name_of(used: &[u8]) -> Name {
    let mut characters = [0; NAME_ROOM];
    characters[..used.len()].copy_from_slice(used);
    Name { length: used.len(), characters }
}

/// The characters of an accepted message that stand under a data field.
fn characters_of(message: &Message, df: u16) -> Vec<u8> {
    message.readings(df).iter().map(|c| c.expect("a character has a value") as u8).collect()
}

/// The record of an accepted message.
pub fn record_of(message: &Message) -> Record {
    let kind = KINDS.iter().position(|of| of.contains(&message.number)).expect("a kind of every number");
    let names = named(kind).then(|| [144, 146].map(|df| name_of(&characters_of(message, df))));
    let fields = message.fields.iter().copied().filter(|f| !of_a_name(f.0)).collect();
    Record { kind, names, fields }
}

/// Whether the records of a kind have names.
fn named(kind: usize) -> bool {
    kind < GRID_KIND
}

/// What the reader of a kind gives: refusals 1 to 5 and 7 with a record of zeros, or the record.
pub fn read_record(bytes: &[u8], kind: usize) -> (Result<(), Refusal>, Record) {
    match read_kind(bytes, kind) {
        Ok(message) => (Ok(()), record_of(&message)),
        Err(refusal) => (Err(refusal), zeros(kind)),
    }
}

/// The refused record of a kind, with values 0 and empty names.
pub fn zeros(kind: usize) -> Record {
    made_of(kind, &Row { values: Vec::new(), present: Vec::new() })
}

/// What a place of a row says: none where its presence byte is 0, and the value 0 behind the row's end.
fn said_at(row: &Row, place: usize) -> Reading {
    match row.present.get(place) {
        Some(0) => None,
        _ => Some(row.values.get(place).copied().unwrap_or(0)),
    }
}

/// The number at a place of a row, 0 where it says none.
fn number_at(row: &Row, place: usize) -> i64 {
    said_at(row, place).unwrap_or(0)
}

/// The name at a place of a row: a counter outside 0 to 31 counts as 0, a character is its value modulo 256 or 0.
fn name_at(row: &Row, place: usize) -> Name {
    let length = usize::try_from(number_at(row, place)).ok().filter(|&length| length <= NAME_ROOM).unwrap_or(0);
    let used: Vec<u8> = (0..length).map(|i| number_at(row, place + 1 + i).max(0) as u8).collect();
    name_of(&used)
}

/// The message number whose data fields a record of a kind has.
fn fields_like(kind: usize, number: i64) -> u16 {
    let of_the_kind = KINDS[kind].iter().copied().find(|&other| i64::from(other) == number);
    of_the_kind.unwrap_or(KINDS[kind][0])
}

/// The record of a kind that is made from a row without a test of any field.
pub fn made_of(kind: usize, row: &Row) -> Record {
    let like = fields_like(kind, number_at(row, 0));
    let names = named(kind).then(|| {
        let source = name_at(row, 1);
        let target = name_at(row, 2 + source.length);
        [source, target]
    });
    let lengths = names.as_ref().map_or([0, 0], |names| [names[0].length, names[1].length]);
    let places = fields_in_order(like, lengths).into_iter().enumerate();
    let fields = places.filter(|&(_, df)| !of_a_name(df)).map(|(place, df)| (df, field_at(row, place, df))).collect();
    Record { kind, names, fields }
}

/// What a field of a record says at a place of a row: a none is kept where the record's field can hold one.
fn field_at(row: &Row, place: usize, df: u16) -> Reading {
    if by_df(df).signed() || df == EASTING {
        said_at(row, place)
    } else {
        Some(number_at(row, place))
    }
}

/// Whether a name is at most 31 long and zero behind its length.
fn good(name: &Name) -> bool {
    name.length <= NAME_ROOM && name.characters[name.length..].iter().all(|&c| c == 0)
}

/// A name as its fields say it: its counter and then its characters.
fn name_readings(name: &Name) -> Vec<Reading> {
    let used = name.characters[..name.length].iter().map(|&c| Some(c as i64));
    std::iter::once(Some(name.length as i64)).chain(used).collect()
}

/// Whether a record has a message number of its kind.
fn of_its_kind(record: &Record) -> bool {
    KINDS[record.kind].iter().any(|&number| record.fields[0].1 == Some(i64::from(number)))
}

/// Writes a record, with RANGE (a number of another kind and a bad name included) and then ROOM.
pub fn write_record(record: &Record, room: usize) -> Result<Vec<u8>, Refusal> {
    let names = record.names.iter().flatten();
    if !of_its_kind(record) || !names.clone().all(good) {
        return Err(Refusal::Range);
    }
    let mut readings: Vec<Reading> = record.fields.iter().map(|f| f.1).collect();
    readings.splice(1..1, names.flat_map(name_readings));
    write_readings(&readings, room)
}

/// All fields of a record in wire order, each as its DF number and its value or the word none.
pub fn text(record: &Record) -> String {
    let field = |&(df, reading): &(u16, Reading)| {
        format!("{df:03}={}", reading.map_or("none".to_string(), |value| value.to_string()))
    };
    let mut words: Vec<String> = record.fields.iter().map(field).collect();
    let names = record.names.iter().flatten().zip([(143, 144), (145, 146)]);
    let names = names.map(|(name, (counter, character))| {
        format!("{counter}={} {character}={}", name.length, hex(&name.characters[..name.length]))
    });
    words.splice(1..1, names.collect::<Vec<String>>());
    words.join(" ")
}
