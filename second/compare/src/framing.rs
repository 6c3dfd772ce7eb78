//! Compares frames: finding one in a stream, and writing one.

use crate::messages::{any_room, pick, sound};
use crate::writing::{same_output, BEHIND};
use crate::{same, Compared};
use second::damage::Damage;
use second::frame::{find_frame, frame_of, tail_of, write_frame, HEAD, LONGEST, PREAMBLE, TAIL};
use second::hex::hex;
use second::random::Random;
use second::streams::{any_noise, any_stream};
use tarnoklej::ffi;

/// How many kinds of streams there are.
const STREAMS: u64 = 12;
/// The most bytes of an output, some more than the longest frame has.
const MOST_ROOM: usize = HEAD + LONGEST + TAIL + 40;
/// What adversarial streams are made of: false D3 that call for many bytes, for few and for none.
const REPEATED: [&[u8]; 8] = [
    &[0xd3, 3],
    &[0xd3, 0],
    &[0xd3],
    &[0xd3, 0, 0],
    &[0xd3, 0, 0, 0x47, 0xea, 0x4a],
    &[0xd3, 3, 0xff],
    &[0xd3, 1, 0, 0xd3, 4],
    &[0xd3, 0, 0, 0x47, 0xea, 0x4b, 0xd3],
];

/// A stream of one of the kinds.
fn any_bytes(random: &mut Random, kind: u64) -> Vec<u8> {
    match kind % STREAMS {
        0 | 1 => any_stream(random, 6, 40),
        2 => frames_of_messages(random),
        3 => cut(random, |random| any_stream(random, 3, 60)),
        4 => cut(random, frames_of_messages),
        5 => {
            let length = random.below(200) as usize;
            any_noise(random, length)
        }
        6 => long_frames(random),
        7 => repeated(random),
        8 => repeated_and_frames(random),
        9 => nested(random),
        10 => bits_set_behind_preamble(random),
        _ => one_bit_wrong(random),
    }
}

/// Frames of sound messages 1021 to 1027 with noise between some of them.
fn frames_of_messages(random: &mut Random) -> Vec<u8> {
    let mut stream = Vec::new();
    for _ in 0..1 + random.below(3) {
        stream.extend(frame_of(&sound(random)));
        if random.below(2) == 0 {
            let length = random.below(20) as usize;
            stream.extend(any_noise(random, length));
        }
    }
    stream
}

/// A stream of which only the first bytes have arrived.
fn cut(random: &mut Random, make: impl FnOnce(&mut Random) -> Vec<u8>) -> Vec<u8> {
    let mut stream = make(random);
    stream.truncate(random.below(stream.len() as u64 + 1) as usize);
    stream
}

/// A frame of a long message, whole or damaged, and a short one behind it.
fn long_frames(random: &mut Random) -> Vec<u8> {
    let length = random.within(200, LONGEST as i64) as usize;
    let mut frame = frame_of(&random.bytes(length));
    if random.below(2) == 0 {
        frame = Damage::any(random, frame.len()).done_to(&frame);
    }
    [frame, any_stream(random, 1, 10)].concat()
}

/// The same few bytes over and over, which are false D3.
fn repeated(random: &mut Random) -> Vec<u8> {
    let bytes = pick(random, &REPEATED);
    let most = if bytes[..] == *REPEATED[0] { 1_060 } else { 200 };
    let length = random.below(most) as usize;
    bytes.iter().copied().cycle().take(length).collect()
}

/// Frames between false D3.
fn repeated_and_frames(random: &mut Random) -> Vec<u8> {
    let mut stream = Vec::new();
    for _ in 0..1 + random.below(4) {
        stream.extend(pick(random, &REPEATED).repeat(random.below(5) as usize));
        stream.extend(any_stream(random, 1, 20));
    }
    stream
}

/// A frame whose message holds a stream, often with a wrong bit so that the stream inside shows.
fn nested(random: &mut Random) -> Vec<u8> {
    let mut frame = frame_of(&any_stream(random, 3, 40));
    if random.below(3) > 0 {
        let first = 8 * (1 + random.below(HEAD as u64 - 1)) as usize;
        frame = Damage::Bit(first + random.below(8) as usize).done_to(&frame);
    }
    frame
}

/// A frame of a right CRC but for bits behind its D3 that are set, and a stream behind it.
fn bits_set_behind_preamble(random: &mut Random) -> Vec<u8> {
    let length = random.below(40) as usize;
    let mut bytes = [&[PREAMBLE, (random.below(64) << 2) as u8, length as u8][..], &random.bytes(length)].concat();
    bytes.extend(tail_of(&bytes));
    bytes.extend(any_stream(random, 2, 20));
    bytes
}

/// Two frames, the first with one bit wrong.
fn one_bit_wrong(random: &mut Random) -> Vec<u8> {
    let frame = frame_of(&sound(random));
    let bit = random.below(8 * frame.len() as u64) as usize;
    [Damage::Bit(bit).done_to(&frame), frame].concat()
}

/// A start of a search, mostly 0 and sometimes past the end.
fn any_start(random: &mut Random, length: usize) -> usize {
    match random.below(20) {
        0 => length,
        1 => length + 1 + random.below(3) as usize,
        2 => usize::MAX - random.below(3) as usize,
        3..=9 => random.below(length as u64 + 1) as usize,
        _ => 0,
    }
}

/// Compares one search for a frame.
pub fn compare_found(random: &mut Random, turn: u64) -> Compared {
    let bytes = any_bytes(random, turn).into_boxed_slice();
    let from = any_start(random, bytes.len());
    same_found(&bytes, from)
}

/// Compares a search for a frame in bytes that are given.
pub fn same_found(bytes: &[u8], from: usize) -> Compared {
    let (refusal, at, length) = find_frame(bytes, from).numbers();
    // SAFETY: the pointer and the length are those of a slice.
    let library = unsafe { ffi::tarnoklej_find_frame(bytes.as_ptr(), bytes.len(), from) };
    same(refusal, library, ffi::Frame { refusal, at, length }, || format!("{} from {from}", hex(bytes)))
}

/// A message of a length that is often near the longest or above it.
fn any_message(random: &mut Random, turn: u64) -> Vec<u8> {
    let length = match turn % 5 {
        0 => LONGEST as u64 - 2 + random.below(6),
        1 => random.below(1_200),
        _ => random.below(160),
    };
    random.bytes(length as usize)
}

/// Compares one frame that is written.
pub fn compare_framed(random: &mut Random, turn: u64) -> Compared {
    let message = any_message(random, turn).into_boxed_slice();
    let room = any_room(random, HEAD + message.len() + TAIL, MOST_ROOM);
    same_framed(&message, room, random.bytes(room + BEHIND))
}

/// Compares the frame of a message that is given, in a buffer of some room, which may go on behind it.
pub fn same_framed(message: &[u8], room: usize, before: Vec<u8>) -> Compared {
    // SAFETY: the pointers are those of slices that do not overlap, and the lengths are at most theirs.
    let call = |out| unsafe { ffi::tarnoklej_write_frame(message.as_ptr(), message.len(), out, room) };
    same_output(before, write_frame(message, room), call, || format!("{} room {room}", hex(message)))
}
