//! What a form of showing messages is asked for.

use crate::fault::Fault;
use crate::library::Refusal;
use crate::tables::{Message, Tables};

/// What stands at the head of every message.
pub struct Head<'a> {
    /// The place of its frame.
    pub at: u64,
    pub framed: bool,
    /// The bytes of the message.
    pub length: usize,
    pub number: Option<u16>,
    pub name: Option<&'a str>,
}

/// How many pieces of each kind there were.
#[derive(Default)]
pub struct Counts {
    pub frames: u64,
    /// Bytes outside frames.
    pub outside: u64,
    pub messages: u64,
    pub refused: u64,
    pub other: u64,
}

/// A form of showing messages, which appends what it shows to a string.
pub trait Printer {
    /// Bytes outside frames.
    fn outside(&mut self, out: &mut String, at: u64, length: u64);
    /// A message of another number.
    fn other(&mut self, out: &mut String, head: &Head);
    /// An accepted message and its row.
    fn message(
        &mut self,
        out: &mut String,
        tables: &Tables,
        layout: &Message,
        head: &Head,
        sin: u8,
        row: &[Option<i64>],
    );
    /// A refused message.
    fn refused(&mut self, out: &mut String, tables: &Tables, head: &Head, refusal: Refusal, fault: &Fault);
    /// The end of the stream.
    fn end(&mut self, out: &mut String, bytes: u64, counts: &Counts);
}
