//! Streams to try the finder of frames on: frames, damaged frames and noise with false D3.

use crate::damage::Damage;
use crate::frame::{frame_of, PREAMBLE};
use crate::random::Random;

/// The message 1005 of the example that RTCM 10403, section 4, prints.
pub const EXAMPLE_1005: [u8; 19] =
    [0x3e, 0xd7, 0xd3, 0x02, 0x02, 0x98, 0x0e, 0xde, 0xef, 0x34, 0xb4, 0xbd, 0x62, 0xac, 0x09, 0x41, 0x98, 0x6f, 0x33];

/// Noise of which about every fourth byte is a D3, mostly with six zero bits and a small length behind it.
pub fn any_noise(random: &mut Random, length: usize) -> Vec<u8> {
    let mut noise = Vec::new();
    while noise.len() < length {
        noise.extend(match random.below(8) {
            0 => vec![PREAMBLE, random.below(4) as u8],
            1 | 2 => vec![PREAMBLE, 0, random.below(length as u64) as u8],
            3 => vec![PREAMBLE],
            _ => random.bytes(2),
        });
    }
    noise.truncate(length);
    noise
}

/// A stream of 1 to some pieces, each a frame of a message shorter than given, such a frame damaged, or noise.
pub fn any_stream(random: &mut Random, pieces: u64, shorter_than: u64) -> Vec<u8> {
    let mut stream = Vec::new();
    for _ in 0..1 + random.below(pieces) {
        let length = random.below(shorter_than) as usize;
        let frame = frame_of(&random.bytes(length));
        stream.extend(match random.below(5) {
            0 | 1 => Damage::any(random, frame.len()).done_to(&frame),
            2 => any_noise(random, length),
            _ => frame,
        });
    }
    stream
}
