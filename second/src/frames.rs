//! The program frames: what a recorded stream holds, one line for each frame (document 02, A1).

use crate::bits::BitReader;
use crate::frame::{find_frame, Search, HEAD, TAIL};
use crate::layouts::NUMBERS;
use crate::message::{read, NUMBER_WIDTH};

/// A frame in a stream: the place of its D3 and its message.
pub type Framed<'stream> = (usize, &'stream [u8]);

/// The frames of a stream that has ended, so that an unfinished candidate is no frame.
pub fn frames(stream: &[u8]) -> Vec<Framed<'_>> {
    let mut frames = Vec::new();
    let mut from = 0;
    loop {
        match find_frame(stream, from) {
            Search::Frame { at, length } => {
                frames.push((at, &stream[at + HEAD..at + HEAD + length]));
                from = at + HEAD + length + TAIL;
            }
            Search::Need { at } => from = at + 1,
            Search::NoFrame => return frames,
        }
    }
}

/// The message number, the first 12 bits, where there are as many.
fn number_in(message: &[u8]) -> Option<i64> {
    BitReader::new(message).unsigned(NUMBER_WIDTH)
}

/// What is known of a message 1021 to 1027, with a space before it, and nothing of others.
fn known_of(message: &[u8]) -> String {
    if !number_in(message).is_some_and(|number| NUMBERS.iter().any(|&known| i64::from(known) == number)) {
        return String::new();
    }
    match read(message) {
        Ok(accepted) => format!(" sin {}", accepted.sin()),
        Err(refusal) => format!(" refused {}", refusal.number()),
    }
}

/// The line of a frame.
fn line((at, message): Framed) -> String {
    let number = number_in(message).map_or("-".to_string(), |number| number.to_string());
    format!("{at} {} {number}{}\n", message.len(), known_of(message))
}

/// What the program prints of a stream.
pub fn listing(stream: &[u8]) -> String {
    let frames = frames(stream);
    let inside: usize = frames.iter().map(|(_, message)| HEAD + message.len() + TAIL).sum();
    let lines: String = frames.iter().copied().map(line).collect();
    format!("{lines}{} frames, {} bytes outside frames\n", frames.len(), stream.len() - inside)
}
