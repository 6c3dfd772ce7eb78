//! The table of docs/SAMPLES.md: the fields of a file of sample answers byte by byte.

use crate::answers::{parts, tagged_fields, HEAD, MESSAGE_TAG};
use crate::hex::hex;
use crate::page::grouped;
use std::io::{Error, Result};

/// The head of the table.
const HEADING: &str = "| offset | bytes | what | value |\n|---:|---|---|---|\n";
/// The bytes of a longer field that are shown at its beginning and at its end.
const SHOWN: usize = 4;

/// One line of the table, of many bytes only the first and the last.
fn line(offset: usize, bytes: &[u8], what: &str, value: &str) -> String {
    let shown = if bytes.len() > 2 * SHOWN {
        format!("{} .. {}", hex(&bytes[..SHOWN]), hex(&bytes[bytes.len() - SHOWN..]))
    } else {
        hex(bytes)
    };
    format!("| {offset} | {shown} | {what} | {value} |\n")
}

/// The lines of a point's contents.
fn point_lines(offset: usize, contents: &[u8]) -> String {
    let mut lines = line(offset, &contents[..1], "component", &contents[0].to_string());
    for (i, what) in ["north-south", "east-west", "claimed count"].into_iter().enumerate() {
        let bytes: [u8; 8] = contents[1 + 8 * i..9 + 8 * i].try_into().expect("eight bytes");
        lines += &line(offset + 1 + 8 * i, &bytes, what, &grouped(i64::from_be_bytes(bytes)));
    }
    lines
}

/// The table of a file of the right shape.
pub fn table(file: &[u8]) -> Result<String> {
    let fields = parts(file).and_then(|_| tagged_fields(file)).ok_or_else(|| Error::other("another shape of file"))?;
    let mut text = HEADING.to_string();
    let mut offset = 0;
    for (place, (tag, contents)) in fields.into_iter().enumerate() {
        let of_message = tag == MESSAGE_TAG;
        let what = if of_message { "tag, message".to_string() } else { format!("tag, point {place}") };
        text += &line(offset, &[tag], &what, &tag.to_string());
        text += &line(offset + 1, &file[offset + 1..offset + HEAD], "length", &contents.len().to_string());
        offset += HEAD;
        text += &match of_message {
            true => line(offset, contents, "grid message", &format!("{} bytes", contents.len())),
            false => point_lines(offset, contents),
        };
        offset += contents.len();
    }
    Ok(text)
}
