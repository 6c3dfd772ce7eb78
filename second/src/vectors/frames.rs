//! Cases of transport frames: finding a frame in bytes, and writing one.

use super::{Call, Vector};
use crate::frame::{crc24q, frame_of, tail_of, HEAD, LONGEST, PREAMBLE, TAIL};
use crate::hex::hex;
use crate::layouts::NUMBERS;
use crate::random::Random;
use crate::samples::Sample;
use crate::streams::{any_noise, any_stream, EXAMPLE_1005};

/// The greatest start of a search in the cases.
const GREATEST_START: usize = i64::MAX as usize;
/// The most bytes of most buffers.
const MOST_ROOM: usize = 160;
/// The most bytes of a buffer for a long message.
const MOST_LONG_ROOM: usize = 1_100;

/// All cases of frames.
pub fn cases() -> Vec<Vector> {
    let lists = [
        starts(),
        sound(),
        message_lengths(),
        cut(),
        damaged(),
        second_bytes(),
        preambles_at_the_end(),
        false_preambles(),
        wrong_tails(),
        no_message(),
        two_frames(),
        unfinished_before(),
        unfinished_inside(),
        random_streams(),
        written(),
        single_bits(),
        long_written(),
    ];
    lists.into_iter().flatten().collect()
}

/// A vector of finding a frame.
fn find(name: String, from: usize, bytes: &[u8]) -> Vector {
    Vector { name: format!("frame-{name}"), call: Call::Frame { from, bytes: bytes.to_vec() } }
}

/// A vector of writing the frame of a message.
fn write(name: String, room: usize, message: &[u8]) -> Vector {
    Vector { name: format!("enframe-{name}"), call: Call::Enframe { message: message.to_vec(), room } }
}

/// A vector of writing the frame of a message whose bytes go by a rule.
fn write_long(count: usize, room: usize) -> Vector {
    write(format!("long-{count}-into-{room}"), room, &ruled_message(count))
}

/// A message whose byte i is 7i + 3 modulo 256.
fn ruled_message(count: usize) -> Vec<u8> {
    (0..count).map(|i| (i * 7 + 3) as u8).collect()
}

/// The published frame of a 1005.
fn example() -> Vec<u8> {
    frame_of(&EXAMPLE_1005)
}

/// The frame of a usual message.
fn usual(number: u16) -> Vec<u8> {
    frame_of(&Sample::usual(number).bytes())
}

/// The frame of a 1025 without a D3 behind its first byte.
fn plain() -> Vec<u8> {
    frame_of(&Sample::zeros(1025).with(147, 5).bytes())
}

/// Searches in the published frame from every place, and from places past the end.
fn starts() -> Vec<Vector> {
    let bytes = example();
    let past = [1, 2, 7, 1_000, 65_536, 4_294_967_296].map(|more| bytes.len() + more);
    let froms = (0..=bytes.len()).chain(past).chain([GREATEST_START]);
    let mut cases: Vec<Vector> = froms.map(|from| find(format!("start-{from}"), from, &bytes)).collect();
    for from in [0, 1, GREATEST_START] {
        cases.push(find(format!("nothing-from-{from}"), from, &[]));
    }
    cases
}

/// Frames of all seven numbers: alone, behind other bytes and before other bytes.
fn sound() -> Vec<Vector> {
    let mut cases = Vec::new();
    for number in NUMBERS {
        let frame = usual(number);
        cases.push(find(format!("{number}"), 0, &frame));
        cases.push(find(format!("{number}-behind"), 0, &[&[0, 0xff, 0xd2][..], &frame].concat()));
        cases.push(find(format!("{number}-before"), 0, &[&frame[..], &[0xd3, 0]].concat()));
        cases.push(find(format!("{number}-from-behind"), 1, &[&frame[..], &frame].concat()));
    }
    cases
}

/// Messages of many lengths, whose ten-bit length needs both of its bytes.
fn message_lengths() -> Vec<Vector> {
    let mut cases = Vec::new();
    for length in [0, 1, 2, 3, 4, 127, 128, 254, 255, 256, 257, 261, 300, 380, 390] {
        let frame = frame_of(&ruled_message(length));
        cases.push(find(format!("length-{length}"), 0, &frame));
        cases.push(find(format!("length-{length}-short"), 0, &frame[..frame.len() - 1]));
        cases.push(find(format!("length-{length}-long"), 0, &[&frame[..], &[0]].concat()));
    }
    for (high, low) in [(1, 0), (2, 0), (3, 0), (3, 0xff)] {
        let bytes = [&[PREAMBLE, high, low][..], &[0; 390]].concat();
        cases.push(find(format!("length-{high}-{low}-not-arrived"), 0, &bytes));
    }
    cases
}

/// Frames of which only the first bytes have arrived, alone and behind a whole frame.
fn cut() -> Vec<Vector> {
    let mut cases = Vec::new();
    for (name, frame) in [("1005", example()), ("1023", usual(1023))] {
        for length in 0..=frame.len() {
            cases.push(find(format!("{name}-cut-{length}"), 0, &frame[..length]));
        }
    }
    let both = [plain(), example()].concat();
    for length in 0..=both.len() {
        cases.push(find(format!("second-cut-{length}"), plain().len(), &both[..length]));
    }
    cases
}

/// Frames with each of their bits wrong, alone and with a sound frame behind.
fn damaged() -> Vec<Vector> {
    let mut cases = Vec::new();
    for (name, frame, behind) in
        [("alone", frame_of(&EXAMPLE_1005[..3]), Vec::new()), ("and-another", plain(), example())]
    {
        for bit in 0..8 * frame.len() {
            let mut bytes = [&frame[..], &behind].concat();
            bytes[bit / 8] ^= 0x80 >> (bit % 8);
            cases.push(find(format!("bit-{bit}-{name}"), 0, &bytes));
        }
    }
    cases
}

/// Bytes that are frames with a right CRC but for bits behind the D3 that are set.
fn second_bytes() -> Vec<Vector> {
    let mut cases = Vec::new();
    for second in (0..=0xff).step_by(4).chain([0xff, 0x07]) {
        let mut bytes = [&[PREAMBLE, second, 4][..], &[0x3e, 0xd0, 0, 0]].concat();
        bytes.extend(tail_of(&bytes));
        cases.push(find(format!("second-byte-{second}"), 0, &bytes));
    }
    for first in [0, 0x53, 0xc3, 0xd2, 0xd4, 0xff] {
        let mut bytes = [&[first, 0, 4][..], &[0x3e, 0xd0, 0, 0]].concat();
        bytes.extend(tail_of(&bytes));
        cases.push(find(format!("first-byte-{first}"), 0, &bytes));
    }
    cases
}

/// A D3 as the last byte, and with one byte or two behind it at the end.
fn preambles_at_the_end() -> Vec<Vector> {
    let endings: [&[u8]; 16] = [
        &[0xd3],
        &[0xd3, 0],
        &[0xd3, 1],
        &[0xd3, 3],
        &[0xd3, 4],
        &[0xd3, 0x80],
        &[0xd3, 0xff],
        &[0xd3, 0xd3],
        &[0xd3, 0, 0],
        &[0xd3, 3, 0xff],
        &[0xd3, 4, 0],
        &[0xd3, 0xd3, 0],
        &[0xd3, 0xd3, 0xd3],
        &[0xd3, 0, 0xd3],
        &[0xd3, 4, 0xd3],
        &[0, 0xd3, 0x40],
    ];
    let mut cases = Vec::new();
    for ending in endings {
        let word = hex(ending);
        cases.push(find(format!("end-{word}"), 0, ending));
        cases.push(find(format!("end-{word}-behind-zeros"), 0, &[&[0; 9], ending].concat()));
        let bytes = [&plain(), ending].concat();
        cases.push(find(format!("end-{word}-behind-frame"), 0, &bytes));
        cases.push(find(format!("end-{word}-from-frame-end"), plain().len(), &bytes));
    }
    cases
}

/// False D3 before and inside a frame, all of whose bytes have arrived.
fn false_preambles() -> Vec<Vector> {
    let mut cases = Vec::new();
    let frame = example();
    for (name, before) in [
        ("d3", vec![0xd3]),
        ("d3-d3", vec![0xd3, 0xd3]),
        ("d3-ff", vec![0xd3, 0xff]),
        ("empty", vec![0xd3, 0, 0, 1, 2, 3]),
        ("overlapping", vec![0xd3, 0, 9]),
        ("around", vec![0xd3, 0, 0x16]),
        ("to-the-end", vec![0xd3, 0, 0x13]),
        ("zeros", vec![0xd3, 0, 0, 0, 0, 0, 0, 0]),
        ("many", [0xd3, 0, 2].repeat(6)),
    ] {
        let bytes = [&before[..], &frame, &[0; 3]].concat();
        cases.push(find(format!("false-{name}-before"), 0, &bytes));
        cases.push(find(format!("false-{name}-at-frame"), before.len(), &bytes));
        cases.push(find(format!("false-{name}-past"), before.len() + 1, &bytes));
    }
    let inner = plain();
    let outer = frame_of(&[&[0x3e, 0xd0][..], &inner, &[0xd3, 0, 1]].concat());
    for from in [0, 1, 2, 3, 4, 5, 6, 36, 37, 40, outer.len()] {
        cases.push(find(format!("inside-frame-from-{from}"), from, &outer));
    }
    let mut broken = outer.clone();
    broken[3] ^= 1;
    cases.push(find("inside-broken".to_string(), 0, &broken));
    cases
}

/// Frames whose CRC is another one: of the message alone, with its bytes turned round, from ones, of another polynomial.
fn wrong_tails() -> Vec<Vector> {
    let frame = plain();
    let (body, right) = frame.split_at(frame.len() - TAIL);
    let turned = [right[2], right[1], right[0]];
    let from_ones = crc24q(&[&[0xff, 0xff, 0xff], body].concat()).to_be_bytes();
    let inverted = [!right[0], !right[1], !right[2]];
    let mut cases = Vec::new();
    for (name, tail) in [
        ("of-message", tail_of(&body[HEAD..])),
        ("without-d3", tail_of(&body[1..])),
        ("turned", turned),
        ("from-ones", [from_ones[1], from_ones[2], from_ones[3]]),
        ("inverted", inverted),
        ("zeros", [0; TAIL]),
        ("twice", tail_of(&frame)),
    ] {
        let bytes = [body, &tail].concat();
        cases.push(find(format!("wrong-crc-{name}"), 0, &bytes));
        cases.push(find(format!("wrong-crc-{name}-then-right"), 0, &[&bytes[..], &frame].concat()));
    }
    cases
}

/// Frames of no message.
fn no_message() -> Vec<Vector> {
    let empty = frame_of(&[]);
    let mut cases = Vec::new();
    for length in 0..=empty.len() {
        cases.push(find(format!("empty-cut-{length}"), 0, &empty[..length]));
    }
    let three = empty.repeat(3);
    for from in 0..=three.len() + 1 {
        cases.push(find(format!("empty-three-from-{from}"), from, &three));
    }
    cases
}

/// Two and more frames, read from the start, from each one's end and from between.
fn two_frames() -> Vec<Vector> {
    let frames = [usual(1025), example(), frame_of(&[]), frame_of(&[0x3f]), usual(1026)];
    let bytes = frames.concat();
    let mut cases = Vec::new();
    let mut end = 0;
    for frame in &frames {
        for from in [end, end + 1, end + frame.len() - 1] {
            cases.push(find(format!("frames-from-{from}"), from, &bytes));
        }
        end += frame.len();
    }
    cases.push(find("frames-from-end".to_string(), end, &bytes));
    cases
}

/// Unfinished candidates before a whole frame.
fn unfinished_before() -> Vec<Vector> {
    let frame = example();
    let mut cases = Vec::new();
    for (name, before) in [
        ("longest", vec![0xd3, 3, 0xff]),
        ("one-byte-more", vec![0xd3, 0, 0x17]),
        ("with-some-bytes", vec![0xd3, 0, 0x80, 0x40, 0x10, 0x50]),
        ("two-of-them", vec![0xd3, 3, 0xff, 0xd3, 1, 0]),
        ("behind-others", vec![1, 2, 0xd3, 4, 0xd3, 2, 0]),
    ] {
        let bytes = [&before[..], &frame].concat();
        for from in 0..=before.len() {
            cases.push(find(format!("need-{name}-from-{from}"), from, &bytes));
        }
        let arrived = [&bytes[..], &vec![0; 390 - bytes.len()]].concat();
        cases.push(find(format!("need-{name}-more-arrived"), 0, &arrived));
    }
    cases
}

/// Unfinished candidates inside and behind a whole frame.
fn unfinished_inside() -> Vec<Vector> {
    let frame = frame_of(&[0x3e, 0xd0, 0xd3, 3, 0xff, 0, 0xd3, 0, 9, 0xd3]);
    let mut cases = Vec::new();
    for from in 0..=frame.len() {
        cases.push(find(format!("inside-need-from-{from}"), from, &frame));
    }
    let mut broken = frame;
    let last = broken.len() - 1;
    broken[last] ^= 1;
    cases.push(find("inside-need-broken".to_string(), 0, &broken));
    cases
}

/// Random streams, searched from the start or from a random place.
fn random_streams() -> Vec<Vector> {
    let mut random = Random::new(51);
    let mut cases = Vec::new();
    for i in 0..140 {
        let stream = any_stream(&mut random, 4, 30);
        let from = if i % 3 == 0 { 0 } else { random.below(stream.len() as u64 + 2) as usize };
        cases.push(find(format!("random-{i}"), from, &stream));
    }
    for i in 0..30 {
        let noise = any_noise(&mut random, 60);
        cases.push(find(format!("noise-{i}"), random.below(40) as usize, &noise));
    }
    cases
}

/// Frames that are written into buffers that are long enough, just so, and not.
fn written() -> Vec<Vector> {
    let mut messages: Vec<(String, Vec<u8>)> =
        NUMBERS.iter().map(|&number| (number.to_string(), Sample::usual(number).bytes())).collect();
    messages.push(("1005".to_string(), EXAMPLE_1005.to_vec()));
    messages.push(("digits".to_string(), b"123456789".to_vec()));
    for length in [0, 1, 2, 3, 100, 153, 154, 155, 160] {
        messages.push((format!("ruled-{length}"), ruled_message(length)));
    }
    for (name, byte) in [("zeros", 0), ("ones", 0xff), ("preambles", PREAMBLE)] {
        messages.push((name.to_string(), vec![byte; 40]));
    }
    let mut cases = Vec::new();
    for (name, message) in messages {
        let needed = HEAD + message.len() + TAIL;
        let mut rooms = vec![0, needed - 1, needed, needed + 1, MOST_ROOM];
        rooms.retain(|&room| room <= MOST_ROOM);
        rooms.dedup();
        for room in rooms {
            cases.push(write(format!("{name}-into-{room}"), room, &message));
        }
    }
    cases
}

/// Messages of three bytes with one bit set each, which show the CRC of every place.
fn single_bits() -> Vec<Vector> {
    (0..24).map(|bit| write(format!("bit-{bit}"), 10, &(0x80_0000u32 >> bit).to_be_bytes()[1..])).collect()
}

/// Long messages around the longest one, with buffers that are long enough, just so, and not.
fn long_written() -> Vec<Vector> {
    let mut cases = Vec::new();
    for count in [0, 25, 255, 256, 511, 512, 767, 768, 1_000, 1_022, LONGEST] {
        let needed = HEAD + count + TAIL;
        for room in [needed - 1, needed, needed + 1, MOST_LONG_ROOM] {
            cases.push(write_long(count, room));
        }
    }
    for count in [LONGEST + 1, LONGEST + 2, MOST_LONG_ROOM] {
        for room in [0, 1_029, 1_030, MOST_LONG_ROOM] {
            cases.push(write_long(count, room));
        }
    }
    cases
}
