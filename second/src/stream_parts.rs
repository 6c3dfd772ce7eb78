//! What a stream holds, as docs/DECODE.md lists it: messages, refused ones, others, and bytes outside frames.

use crate::bits::BitReader;
use crate::fields::{by_df, Reading};
use crate::frame::{HEAD, LONGEST, TAIL};
use crate::frames::frames;
use crate::layouts::{layout, Part};
use crate::message::{read, Message, NUMBER_WIDTH};
use crate::refusal::Refusal;

/// A piece of a stream.
pub enum Piece<'stream> {
    /// A message in a frame at a place, or a bare one.
    Message { at: usize, framed: bool, bytes: &'stream [u8] },
    /// Bytes outside frames.
    Outside { at: usize, length: usize },
}

/// A field of a message: its number, the node it belongs to, and what it says; a name's characters are one field.
pub struct Entry {
    /// The number behind "DF".
    pub df: u16,
    /// The node, from 1.
    pub node: Option<usize>,
    /// What the field says, each character of a name for itself.
    pub readings: Vec<Reading>,
}

/// Why a message is refused, with all that is wrong of the kind that is refused.
pub enum Fault {
    /// Too short for a number.
    Short,
    /// It calls for this many bytes.
    Called(usize),
    /// The name counter of this field cannot be read.
    Unread(u16),
    /// These bits behind the last field are set.
    Fill(Vec<usize>),
    /// These fields are outside their range: field, node and number.
    Range(Vec<(u16, Option<usize>, i64)>),
}

/// The message number, where there are as many bits.
pub fn number_of(message: &[u8]) -> Option<i64> {
    BitReader::new(message).unsigned(NUMBER_WIDTH)
}

/// Whether a message number is one of 1021 to 1027.
fn is_known(message: &[u8]) -> bool {
    number_of(message).is_some_and(|number| (1021..=1027).contains(&number))
}

/// The pieces of a stream that has ended.
pub fn pieces(stream: &[u8]) -> Vec<Piece<'_>> {
    let frames = frames(stream);
    if frames.is_empty() && stream.len() <= LONGEST && is_known(stream) {
        return vec![Piece::Message { at: 0, framed: false, bytes: stream }];
    }
    let mut pieces = Vec::new();
    let mut end = 0;
    for (at, bytes) in frames {
        if at > end {
            pieces.push(Piece::Outside { at: end, length: at - end });
        }
        pieces.push(Piece::Message { at, framed: true, bytes });
        end = at + HEAD + bytes.len() + TAIL;
    }
    if stream.len() > end {
        pieces.push(Piece::Outside { at: end, length: stream.len() - end });
    }
    pieces
}

/// The fields of an accepted message.
pub fn entries(message: &Message) -> Vec<Entry> {
    let mut rest = message.fields.iter().map(|&(_, reading)| reading);
    let mut one = |df, node| Entry { df, node, readings: vec![rest.next().expect("a reading for each field")] };
    let mut entries = Vec::new();
    for part in layout(message.number as i64).expect("an accepted number") {
        match *part {
            Part::One(df) => entries.push(one(df, None)),
            Part::Name { counter, character } => {
                let counted = one(counter, None);
                let count = counted.readings[0].expect("a counter has a value");
                entries.push(counted);
                let readings = (0..count).map(|_| one(character, None).readings[0]).collect();
                entries.push(Entry { df: character, node: None, readings });
            }
            Part::SixteenPoints(three) => {
                (1..=16).for_each(|node| three.iter().for_each(|&df| entries.push(one(df, Some(node)))));
            }
        }
    }
    entries
}

/// The fields that a message's bytes call for in order, each with its node and its first bit, and the bit behind the last.
fn places(bytes: &[u8]) -> Result<(Vec<(u16, Option<usize>, usize)>, usize), u16> {
    let mut found = Vec::new();
    let mut at = 0;
    let mut place = |df: u16, node, at: &mut usize| {
        found.push((df, node, *at));
        *at += by_df(df).width as usize;
    };
    for part in layout(number_of(bytes).expect("a number")).expect("a known number") {
        match *part {
            Part::One(df) => place(df, None, &mut at),
            Part::Name { counter, character } => {
                let mut reader = BitReader::new(bytes);
                reader.skip(at);
                let count = reader.unsigned(by_df(counter).width).ok_or(counter)?;
                place(counter, None, &mut at);
                (0..count).for_each(|_| place(character, None, &mut at));
            }
            Part::SixteenPoints(three) => {
                for node in 1..=16 {
                    three.iter().for_each(|&df| place(df, Some(node), &mut at));
                }
            }
        }
    }
    Ok((found, at))
}

/// Why a message is refused.
pub fn fault(bytes: &[u8], refusal: Refusal) -> Fault {
    if refusal == Refusal::Short {
        return Fault::Short;
    }
    let (places, end) = match places(bytes) {
        Err(counter) => return Fault::Unread(counter),
        Ok(found) => found,
    };
    match refusal {
        Refusal::Length => Fault::Called(end.div_ceil(8)),
        Refusal::Fill => {
            Fault::Fill((end..8 * bytes.len()).filter(|bit| bytes[bit / 8] << (bit % 8) & 0x80 != 0).collect())
        }
        _ => Fault::Range(
            places.into_iter().filter_map(|(df, node, at)| outside(bytes, df, at).map(|raw| (df, node, raw))).collect(),
        ),
    }
}

/// The number of a field where it is outside its range.
fn outside(bytes: &[u8], df: u16, at: usize) -> Option<i64> {
    let field = by_df(df);
    let mut reader = BitReader::new(bytes);
    reader.skip(at);
    let raw = if field.signed() { reader.signed(field.width) } else { reader.unsigned(field.width) }?;
    (!field.can_be(field.reading(raw))).then_some(raw)
}

/// What is known of a message: its fields, or why it is refused, or nothing where it has another number.
pub fn known(bytes: &[u8]) -> Option<Result<Message, Refusal>> {
    (number_of(bytes).is_none() || is_known(bytes)).then(|| read(bytes))
}
