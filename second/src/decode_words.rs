//! Words that the text and the JSON of docs/DECODE.md share.

use crate::stream_parts::Fault;

/// A character of a name in ISO 8859-1, in text between quotation marks; others than printed ones are escaped by the form given.
pub fn escaped(bytes: &[u8], form: fn(u8) -> String) -> String {
    let character = |&byte: &u8| match byte {
        b'"' => "\\\"".to_string(),
        b'\\' => "\\\\".to_string(),
        0..=0x1f | 0x7f..=0x9f => form(byte),
        printed => char::from(printed).to_string(),
    };
    format!("\"{}\"", bytes.iter().map(character).collect::<String>())
}

/// Numbers or names behind one another.
pub fn listed<T: ToString>(items: impl IntoIterator<Item = T>) -> String {
    items.into_iter().map(|item| item.to_string()).collect::<Vec<_>>().join(", ")
}

/// The words of a fault in a message of some bytes.
pub fn fault_words(fault: &Fault, length: usize) -> String {
    match fault {
        Fault::Short => "it has under 2 bytes".to_string(),
        Fault::Called(called) => format!("it has {}, and {called} are called for", bytes(length)),
        Fault::Unread(df) => format!("the name counter DF{df:03} cannot be read"),
        Fault::Fill(bits) if bits.len() == 1 => format!("fill bit {} is set", bits[0]),
        Fault::Fill(bits) => format!("fill bits {} are set", listed(bits)),
        Fault::Range(fields) if fields.len() == 1 => format!("DF{:03} is outside its range", fields[0].0),
        Fault::Range(fields) => {
            format!("{} are outside their ranges", listed(fields.iter().map(|field| format!("DF{:03}", field.0))))
        }
    }
}

/// A number of bytes.
pub fn bytes(count: usize) -> String {
    counted(count, "byte")
}

/// A number of things.
pub fn counted(count: usize, thing: &str) -> String {
    format!("{count} {thing}{}", if count == 1 { "" } else { "s" })
}

/// How many pieces there are of each kind.
#[derive(Default)]
pub struct Counts {
    /// Frames.
    pub frames: usize,
    /// Bytes outside frames.
    pub outside: usize,
    /// Accepted messages.
    pub messages: usize,
    /// Refused ones.
    pub refused: usize,
    /// Messages of other numbers.
    pub other: usize,
}
