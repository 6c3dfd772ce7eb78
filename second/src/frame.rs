//! Transport frames (document 02, A1; RTCM 10403.1, section 4): byte D3, six zero bits, a ten-bit length, the message, and
//! the CRC-24Q of all these.

use crate::refusal::Refusal;

/// The byte with which every frame begins.
pub const PREAMBLE: u8 = 0xd3;
/// The bytes before the message: D3, six zero bits and the length.
pub const HEAD: usize = 3;
/// The bytes behind the message, which are its CRC-24Q.
pub const TAIL: usize = 3;
/// The bytes of the longest message that a frame holds.
pub const LONGEST: usize = 1_023;
/// The polynomial of CRC-24Q, the coefficient of its 24th power first.
const POLYNOMIAL: u32 = 0x186_4cfb;

/// What a search for a frame comes to.
#[derive(Clone, Copy, PartialEq, Eq, Debug)]
pub enum Search {
    /// A frame stands at this place, with a message of this length.
    Frame { at: usize, length: usize },
    /// The candidate at this place calls for bytes that have not arrived.
    Need { at: usize },
    /// Neither of these.
    NoFrame,
}

impl Search {
    /// The refusal number, the place and the length, zeros where the answer has none.
    pub fn numbers(self) -> (u8, usize, usize) {
        match self {
            Search::Frame { at, length } => (0, at, length),
            Search::Need { at } => (Refusal::Need.number(), at, 0),
            Search::NoFrame => (Refusal::NoFrame.number(), 0, 0),
        }
    }
}

/// The CRC-24Q of bytes: what is left when their bits, and 24 zero bits behind them, are divided by the polynomial.
pub fn crc24q(bytes: &[u8]) -> u32 {
    let mut remainder = 0;
    for byte in bytes.iter().chain(&[0; TAIL]) {
        for place in (0..8).rev() {
            remainder = remainder << 1 | u32::from(byte >> place & 1);
            if remainder >> 24 == 1 {
                remainder ^= POLYNOMIAL;
            }
        }
    }
    remainder
}

/// The CRC-24Q of bytes as it stands behind them.
pub fn tail_of(bytes: &[u8]) -> [u8; TAIL] {
    let [_, tail @ ..] = crc24q(bytes).to_be_bytes();
    tail
}

/// Whether bytes begin with D3 and six zero bits, or are a D3 alone.
fn is_candidate(bytes: &[u8]) -> bool {
    bytes.first() == Some(&PREAMBLE) && bytes.get(1).is_none_or(|second| second >> 2 == 0)
}

/// The bytes that a candidate calls for, where all of them are there.
fn arrived(candidate: &[u8]) -> Option<&[u8]> {
    let length = usize::from(candidate.get(1)? & 3) << 8 | usize::from(*candidate.get(2)?);
    candidate.get(..HEAD + length + TAIL)
}

/// The length of the message where bytes begin with a whole frame of a right CRC.
fn message_length(bytes: &[u8]) -> Option<usize> {
    let frame = arrived(bytes).filter(|_| is_candidate(bytes))?;
    let (body, tail) = frame.split_at(frame.len() - TAIL);
    (tail_of(body) == tail).then_some(body.len() - HEAD)
}

/// Whether bytes begin with a candidate that calls for bytes which have not arrived.
fn is_unfinished(bytes: &[u8]) -> bool {
    is_candidate(bytes) && arrived(bytes).is_none()
}

/// The first frame at or after a place, unless an unfinished candidate comes before it or stands where there is no frame.
pub fn find_frame(bytes: &[u8], from: usize) -> Search {
    let frame = (from..bytes.len()).find_map(|at| message_length(&bytes[at..]).map(|length| (at, length)));
    let before = frame.map_or(bytes.len(), |(at, _)| at);
    let unfinished = (from..before).find(|&at| is_unfinished(&bytes[at..]));
    match (unfinished, frame) {
        (Some(at), _) => Search::Need { at },
        (None, Some((at, length))) => Search::Frame { at, length },
        (None, None) => Search::NoFrame,
    }
}

/// The frame of a message, with LENGTH above 1,023 bytes and then ROOM.
pub fn write_frame(message: &[u8], room: usize) -> Result<Vec<u8>, Refusal> {
    if message.len() > LONGEST {
        return Err(Refusal::Length);
    }
    let [.., high, low] = message.len().to_be_bytes();
    let mut frame = [&[PREAMBLE, high, low], message].concat();
    frame.extend(tail_of(&frame));
    if frame.len() > room {
        Err(Refusal::Room)
    } else {
        Ok(frame)
    }
}

/// The frame of a message that is short enough, with room for it.
pub fn frame_of(message: &[u8]) -> Vec<u8> {
    write_frame(message, usize::MAX).expect("a message of at most 1,023 bytes")
}
