//! The exported calls that designed vectors make, with their arguments.

use crate::message::Row;
use crate::rows::Ask;

/// One designed vector.
pub struct Vector {
    /// What the vector shows.
    pub name: String,
    /// The call that it makes.
    pub call: Call,
}

/// A call and its arguments.
pub enum Call {
    /// A message is read: its header, its row, and the message of that row.
    Read(Vec<u8>),
    /// A row is written into a buffer.
    Write { row: Row, room: usize },
    /// The shifts at a position.
    Shift { bytes: Vec<u8>, position: [i64; 2] },
    /// A call on a table and its index.
    OnTable(OnTable),
    /// The first frame at or after a place.
    Frame { from: usize, bytes: Vec<u8> },
    /// The frame of a message is written into a buffer.
    Enframe { message: Vec<u8>, room: usize },
    /// A row of shifts in a buffer.
    Row { bytes: Vec<u8>, ask: Ask, room: usize },
    /// The message of wanted heights is written into a buffer.
    Heights { row: Row, wanted: Vec<i64>, room: usize },
}

impl Call {
    /// The word under which vectors are counted.
    pub fn kind(&self) -> &'static str {
        match self {
            Call::Read(_) => "read",
            Call::Write { .. } => "write",
            Call::Shift { .. } => "shift",
            Call::OnTable(call) => call.kind(),
            Call::Frame { .. } => "frame",
            Call::Enframe { .. } => "enframe",
            Call::Row { .. } => "row",
            Call::Heights { .. } => "heights",
        }
    }
}

/// What is done to a table and the index beside it, or asked of them.
pub enum OnTable {
    /// A fresh table of zeros takes the place of the one before.
    Fresh { size: usize },
    /// A fresh index of zeros takes the place of the one before.
    FreshIndex { size: usize },
    /// A byte is put into the table.
    Poke { at: usize, value: u8 },
    /// A byte is put into the index.
    PokeIndex { at: usize, value: u8 },
    /// A message is stored.
    Store { owner: u8, message: Vec<u8> },
    /// A key is removed.
    Remove { owner: u8, sin: u8, group: u8 },
    /// A key is found.
    Find { owner: u8, sin: u8, group: u8 },
    /// Whether table and index agree.
    Agrees,
    /// The index is written anew.
    Rebuild,
    /// All bytes of the table are looked at.
    Bytes,
    /// All bytes of the index are looked at.
    IndexBytes,
}

impl OnTable {
    /// The word under which vectors are counted.
    pub fn kind(&self) -> &'static str {
        match self {
            OnTable::Fresh { .. } => "table",
            OnTable::FreshIndex { .. } => "index",
            OnTable::Poke { .. } => "poke",
            OnTable::PokeIndex { .. } => "pokeindex",
            OnTable::Store { .. } => "store",
            OnTable::Remove { .. } => "remove",
            OnTable::Find { .. } => "find",
            OnTable::Agrees => "agrees",
            OnTable::Rebuild => "rebuild",
            OnTable::Bytes => "bytes",
            OnTable::IndexBytes => "indexbytes",
        }
    }
}
