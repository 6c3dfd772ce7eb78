//! Frames against published values, and against the recording of the made-up services.

mod common;

use common::{in_repository, text_of};
use tarnoklej::*;

/// The message 1005 of the example that RTCM 10403, section 4, prints.
const EXAMPLE_1005: [u8; 19] =
    [0x3e, 0xd7, 0xd3, 0x02, 0x02, 0x98, 0x0e, 0xde, 0xef, 0x34, 0xb4, 0xbd, 0x62, 0xac, 0x09, 0x41, 0x98, 0x6f, 0x33];

/// The frame of a message, which both ways of writing give.
fn frame_of(message: &[u8]) -> Vec<u8> {
    let mut out = vec![0; FRAME_HEAD + MOST_FRAMED + FRAME_TAIL];
    let length = write_frame_into(message, &mut out).expect("a message that a frame holds");
    out.truncate(length);
    assert_eq!(write_frame(message).as_ref(), Ok(&out));
    out
}

#[test]
fn the_published_frame_is_written_and_found() {
    let frame = frame_of(&EXAMPLE_1005);
    assert_eq!(frame[..FRAME_HEAD], [0xd3, 0, 0x13]);
    assert_eq!(frame[22..], [0x36, 0x0b, 0x98]);
    assert_eq!(find_frame(&frame, 0), Ok(Frame { at: 0, message: &EXAMPLE_1005 }));
}

#[test]
fn a_cut_frame_needs_bytes() {
    let frame = frame_of(&[0x3e, 0xd0, 7]);
    assert_eq!(find_frame(&[], 0), Err(Missing::NoFrame));
    for length in 1..frame.len() {
        assert_eq!(find_frame(&frame[..length], 0), Err(Missing::Need(0)));
    }
    assert_eq!(find_frame(&frame, 0), Ok(Frame { at: 0, message: &[0x3e, 0xd0, 7] }));
}

#[test]
fn a_wrong_bit_makes_no_frame() {
    let frame = frame_of(&[0x3e, 0xd0, 7]);
    for bit in 0..8 * frame.len() {
        let mut wrong = frame.clone();
        wrong[bit / 8] ^= 0x80 >> (bit % 8);
        let refusal = find_frame(&wrong, 0).map_err(Missing::refusal).expect_err("no frame");
        // Bits 14 to 23 are the length, which may then call for more bytes.
        let length = usize::from(wrong[1] & 3) << 8 | usize::from(wrong[2]);
        let longer = (14..24).contains(&bit) && length > 3;
        assert_eq!(refusal, if longer { Refusal::Need } else { Refusal::NoFrame }, "bit {bit}");
    }
}

#[test]
fn a_start_past_the_end_finds_no_frame() {
    let frame = frame_of(&EXAMPLE_1005);
    for from in [frame.len(), frame.len() + 1, usize::MAX - 1, usize::MAX] {
        assert_eq!(find_frame(&frame, from), Err(Missing::NoFrame));
    }
    // SAFETY: the pointer and the length are those of a slice.
    let answer = unsafe { ffi::tarnoklej_find_frame(frame.as_ptr(), frame.len(), usize::MAX) };
    assert_eq!(answer, ffi::Frame { refusal: 20, at: 0, length: 0 });
}

#[test]
fn an_unfinished_frame_comes_before_a_whole_one() {
    let whole = frame_of(&EXAMPLE_1005);
    let bytes = [&[0, 0xd3, 3, 0xff][..], &whole].concat();
    // SAFETY: the pointer and the length are those of a slice.
    let answer = unsafe { ffi::tarnoklej_find_frame(bytes.as_ptr(), bytes.len(), 0) };
    assert_eq!(answer, ffi::Frame { refusal: 19, at: 1, length: 0 });
    assert_eq!(find_frame(&bytes, 2), Ok(Frame { at: 4, message: &EXAMPLE_1005 }));
}

#[test]
fn a_found_message_is_the_buffer_itself() {
    let bytes = [&[1, 2, 3][..], &frame_of(&EXAMPLE_1005)].concat();
    let found = find_frame(&bytes, 0).expect("a frame");
    assert_eq!((found.at, found.end()), (3, bytes.len()));
    assert_eq!(found.message.as_ptr(), bytes[6..].as_ptr());
}

#[test]
fn limits_of_a_written_frame() {
    let mut out = [0xa5; 1_030];
    assert_eq!(write_frame_into(&[9; MOST_FRAMED + 1], &mut out), Err(Refusal::Length));
    assert_eq!(write_frame_into(&[9; MOST_FRAMED + 1], &mut []), Err(Refusal::Length));
    assert_eq!(write_frame(&[9; MOST_FRAMED + 1]), Err(Refusal::Length));
    assert_eq!(write_frame(&[9; 5_000]), Err(Refusal::Length));
    assert_eq!(write_frame_into(&[9; MOST_FRAMED], &mut out[..1_028]), Err(Refusal::Room));
    assert_eq!(write_frame_into(&[], &mut out[..5]), Err(Refusal::Room));
    assert_eq!(out, [0xa5; 1_030]);
    assert_eq!(write_frame_into(&[9; MOST_FRAMED], &mut out), Ok(1_029));
    assert_eq!((out[..4].to_vec(), out[1_029]), (vec![0xd3, 3, 0xff, 9], 0xa5));
}

#[test]
fn frames_are_read_back_in_order() {
    let messages: Vec<Vec<u8>> = [0, 1, 2, 25, 127, 255, 256, 511, 1_022, 1_023].map(|n| vec![0xd3; n]).to_vec();
    let bytes: Vec<u8> = messages.iter().flat_map(|message| frame_of(message)).collect();
    let mut found = frames(&bytes, 0);
    assert_eq!(found.by_ref().map(|frame| frame.message.to_vec()).collect::<Vec<_>>(), messages);
    assert_eq!((found.next(), found.need()), (None, None));
}

#[test]
fn the_frames_of_a_buffer_say_what_they_need() {
    let frame = frame_of(&EXAMPLE_1005);
    let bytes = [&frame[..], &[0; 4], &frame].concat();
    for length in 0..=bytes.len() {
        let mut found = frames(&bytes[..length], 0);
        assert_eq!(found.need(), None);
        let count = found.by_ref().count();
        let second = frame.len() + 4;
        let (whole, need) = match length {
            0 => (0, None),
            1..=24 => (0, Some(0)),
            25..=29 => (1, None),
            30..=53 => (1, Some(second)),
            _ => (2, None),
        };
        assert_eq!((count, found.need()), (whole, need), "length {length}");
    }
}

/// The frames of a stream that has ended.
fn frames_of_recording(bytes: &[u8]) -> Vec<Frame<'_>> {
    let mut all = Vec::new();
    let mut found = frames(bytes, 0);
    loop {
        all.extend(found.by_ref());
        match found.need() {
            Some(at) => found = frames(bytes, at + 1),
            None => return all,
        }
    }
}

/// The line that is printed for a frame.
fn line(frame: Frame) -> String {
    let Frame { at, message } = frame;
    let head = format!("{at} {}", message.len());
    let Some(number) = message_number(message) else {
        return format!("{head} -");
    };
    match read(message) {
        Ok(header) => format!("{head} {number} sin {}", header.sin),
        Err(Refusal::Number) => format!("{head} {number}"),
        Err(refusal) => format!("{head} {number} refused {}", refusal.number()),
    }
}

#[test]
fn the_recording_holds_the_expected_frames() {
    let bytes = std::fs::read(in_repository("services/recording.rtcm")).expect("the recording");
    let expected = text_of("services/recording.expected");
    let found = frames_of_recording(&bytes);
    let inside: usize = found.iter().map(|frame| frame.end() - frame.at).sum();
    let mut lines: Vec<String> = found.iter().copied().map(line).collect();
    lines.push(format!("{} frames, {} bytes outside frames", found.len(), bytes.len() - inside));
    assert_eq!(lines, expected.lines().collect::<Vec<_>>());
}
