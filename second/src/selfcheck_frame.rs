//! The second program's own checks of frames.

use crate::frame::{crc24q, find_frame, frame_of, write_frame, Search, LONGEST};
use crate::frames::{frames, listing};
use crate::random::Random;
use crate::recording::recording;
use crate::refusal::Refusal;
use crate::selfcheck::Group;
use crate::services::services;
use crate::streams::{any_stream, EXAMPLE_1005};

/// All groups of checks of frames.
pub fn groups() -> Vec<Group> {
    vec![published(), limits(), in_order(), program(), recorded(), more_bytes()]
}

/// The CRC and the frame that are published.
fn published() -> Group {
    let mut group = Group::new("published values of CRC-24Q");
    group.equal("123456789", crc24q(b"123456789"), 0xcd_e703);
    group.equal("no bytes", crc24q(&[]), 0);
    let frame = frame_of(&EXAMPLE_1005);
    group.equal("head of 1005", &frame[..3], &[0xd3, 0, 0x13]);
    group.equal("end of 1005", &frame[22..], &[0x36, 0x0b, 0x98]);
    group.equal("CRC of a frame with its CRC", crc24q(&frame), 0);
    group
}

/// The longest message and the least room.
fn limits() -> Group {
    let mut group = Group::new("lengths and rooms of frames");
    group.equal("longest", write_frame(&[7; LONGEST], 1_029).map(|frame| frame.len()), Ok(1_029));
    group.equal("length bits", frame_of(&[7; LONGEST])[1..3].to_vec(), vec![3, 0xff]);
    group.equal("too long", write_frame(&[7; LONGEST + 1], 0), Err(Refusal::Length));
    group.equal("no room", write_frame(&[7; LONGEST], 1_028), Err(Refusal::Room));
    group.equal("no message", write_frame(&[], 6).map(|frame| frame.len()), Ok(6));
    group.equal("past the end", find_frame(&frame_of(&[]), 7), Search::NoFrame);
    group.equal("last byte", find_frame(&[0, 0xd3], 0), Search::Need { at: 1 });
    group
}

/// Frames written one after another, which are read back in order, and then none.
fn in_order() -> Group {
    let mut group = Group::new("frames written and read back");
    let mut random = Random::new(41);
    for _ in 0..300 {
        let messages: Vec<Vec<u8>> = (0..random.below(6))
            .map(|_| {
                let length = random.below(120) as usize;
                random.bytes(length)
            })
            .collect();
        let stream: Vec<u8> = messages.iter().flat_map(|message| frame_of(message)).collect();
        let back: Vec<Vec<u8>> = frames(&stream).into_iter().map(|(_, message)| message.to_vec()).collect();
        group.equal("messages", back, messages);
        group.equal("from the end", find_frame(&stream, stream.len()), Search::NoFrame);
    }
    group
}

/// What the program prints of short streams.
fn program() -> Group {
    let mut group = Group::new("the program frames");
    let none = "0 frames, 0 bytes outside frames\n";
    group.equal("nothing", listing(&[]), none.to_string());
    let mut message = vec![0x40, 0x10, 0x50];
    message.resize(25, 0);
    let stream = [&[1, 0xd3, 0][..], &frame_of(&message), &frame_of(&message[..24]), &frame_of(&[9])].concat();
    let lines = "3 25 1025 sin 5\n34 24 1025 refused 3\n64 1 -\n3 frames, 3 bytes outside frames\n";
    group.equal("three frames", listing(&stream), lines.to_string());
    let unfinished = [&[0xd3, 1, 0][..], &frame_of(&EXAMPLE_1005), &[0xd3]].concat();
    let line = "3 19 1005\n1 frames, 4 bytes outside frames\n";
    group.equal("unfinished", listing(&unfinished), line.to_string());
    group
}

/// Every sound message of every service, which stands in a frame of the recording.
fn recorded() -> Group {
    let mut group = Group::new("services in the recording");
    let stream = recording();
    let messages: Vec<&[u8]> = frames(&stream).into_iter().map(|(_, message)| message).collect();
    for service in services() {
        for file in service.files.iter().filter(|file| !file.name.contains('-')) {
            group.check(messages.contains(&&file.bytes[..]), || format!("{} {}", service.folder, file.name));
        }
    }
    group.equal("messages", group.made, 15);
    group
}

/// Bytes that arrive behind, which change no answer 0 and move no place of a NEED to an earlier one.
fn more_bytes() -> Group {
    let mut group = Group::new("bytes that arrive behind");
    let mut random = Random::new(42);
    for _ in 0..2_000 {
        let stream = any_stream(&mut random, 4, 20);
        let length = random.below(stream.len() as u64 + 1) as usize;
        let from = random.below(length as u64 + 1) as usize;
        let (before, after) = (find_frame(&stream[..length], from), find_frame(&stream, from));
        let holds = match (before, after) {
            (Search::Frame { .. }, _) => before == after,
            (Search::Need { at: need }, Search::Frame { at, .. } | Search::Need { at }) => need <= at,
            (Search::NoFrame, Search::Frame { at, .. } | Search::Need { at }) => length <= at,
            (_, Search::NoFrame) => true,
        };
        group.check(holds, || format!("{stream:?} to {length} from {from}: {before:?}, then {after:?}"));
    }
    group
}
