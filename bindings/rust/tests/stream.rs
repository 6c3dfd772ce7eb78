//! The frames of a stream are those of all its bytes, however they arrive, in bounded memory.

mod common;

use common::{in_repository, text_of};
use std::io::{self, Read};
use tarnoklej::*;

/// The most bytes that stay when no frame is left: one unfinished frame but its last byte.
const MOST_KEPT: usize = FRAME_HEAD + MOST_FRAMED + FRAME_TAIL - 1;

/// The recording of the made-up services.
fn recording() -> Vec<u8> {
    std::fs::read(in_repository("services/recording.rtcm")).expect("the recording")
}

/// A frame's place and message.
type Found = (u64, Vec<u8>);

/// The frames that are whole by now.
fn whole(stream: &mut FrameStream) -> Vec<Found> {
    let mut found = Vec::new();
    while let Some(frame) = stream.next_frame() {
        assert_eq!(find_frame(frame.bytes, 0).map(|frame| frame.message), Ok(frame.message));
        found.push((frame.at, frame.message.to_vec()));
    }
    found
}

/// The frames of a stream that arrives in pieces.
fn in_pieces<'bytes>(pieces: impl Iterator<Item = &'bytes [u8]>) -> (Vec<Found>, FrameStream) {
    let mut stream = FrameStream::new();
    let mut found = Vec::new();
    for piece in pieces {
        stream.push(piece);
        found.extend(whole(&mut stream));
        assert!(stream.kept() <= MOST_KEPT + piece.len(), "{} bytes are kept", stream.kept());
    }
    stream.end();
    found.extend(whole(&mut stream));
    (found, stream)
}

#[test]
fn the_recording_in_pieces_of_every_size() {
    let (bytes, expected) = (recording(), text_of("services/recording.expected"));
    let lines: Vec<&str> = expected.lines().collect();
    let (last, frames) = lines.split_last().expect("a last line that counts");
    for size in (1..40).chain([64, 100, 1_000, 1_029, 4_096, bytes.len()]) {
        let (found, stream) = in_pieces(bytes.chunks(size));
        let starts: Vec<String> = found.iter().map(|(at, message)| format!("{at} {} ", message.len())).collect();
        assert_eq!(starts.len(), frames.len());
        for (line, start) in frames.iter().zip(&starts) {
            assert!(line.starts_with(start), "pieces of {size}: {start} for {line}");
        }
        assert_eq!(format!("{} frames, {} bytes outside frames", found.len(), stream.outside()), *last);
        assert_eq!((stream.length(), stream.need()), (bytes.len() as u64, None));
    }
}

#[test]
fn a_cut_at_every_byte_gives_the_same_frames() {
    let bytes = recording();
    let (expected, _) = in_pieces([&bytes[..]].into_iter());
    for cut in (0..bytes.len()).step_by(7) {
        let (found, _) = in_pieces([&bytes[..cut], &bytes[cut..]].into_iter());
        assert!(found == expected, "cut at {cut}");
    }
}

#[test]
fn a_frame_is_given_with_its_last_byte() {
    let frame = write_frame(&[0x3e, 0xd0, 7]).expect("a frame");
    let mut stream = FrameStream::new();
    for (place, byte) in frame.iter().enumerate() {
        assert_eq!(stream.next_frame(), None);
        assert_eq!(stream.need(), (place > 0).then_some(0));
        stream.push(&[*byte]);
    }
    assert_eq!(whole(&mut stream), [(0, vec![0x3e, 0xd0, 7])]);
    assert_eq!((stream.need(), stream.outside(), stream.length()), (None, 0, 9));
}

#[test]
fn false_preambles_do_not_fill_the_memory() {
    let mut stream = FrameStream::new();
    for _ in 0..100 {
        stream.push(&[0xd3, 3].repeat(5_000));
        assert_eq!(stream.next_frame(), None);
        assert!(stream.kept() <= MOST_KEPT, "{}", stream.kept());
    }
    assert_eq!((stream.length(), stream.outside()), (1_000_000, 1_000_000));
    stream.end();
    assert_eq!(stream.next_frame(), None);
    assert_eq!(stream.need(), None);
}

#[test]
fn bytes_that_arrive_behind_an_end_are_searched_too() {
    let frame = write_frame(&[0x3e, 0xd0]).expect("a frame");
    let mut stream = FrameStream::new();
    stream.end();
    assert_eq!(stream.next_frame(), None);
    stream.push(&frame);
    assert_eq!(whole(&mut stream), [(0, vec![0x3e, 0xd0])]);
}

/// A source that gives its bytes in small pieces, and is interrupted before each.
struct Slow<'bytes> {
    bytes: &'bytes [u8],
    interrupted: bool,
}

impl Read for Slow<'_> {
    fn read(&mut self, out: &mut [u8]) -> io::Result<usize> {
        self.interrupted = !self.interrupted;
        if self.interrupted {
            return Err(io::ErrorKind::Interrupted.into());
        }
        let count = self.bytes.len().min(13).min(out.len());
        let (now, later) = self.bytes.split_at(count);
        out[..count].copy_from_slice(now);
        self.bytes = later;
        Ok(count)
    }
}

#[test]
fn a_source_is_read_to_its_end() {
    let bytes = recording();
    let (expected, _) = in_pieces([&bytes[..]].into_iter());
    let mut stream = FrameStream::new();
    let mut source = Slow { bytes: &bytes, interrupted: false };
    let mut found = Vec::new();
    loop {
        let count = stream.read_from(&mut source).expect("a reading");
        found.extend(whole(&mut stream));
        if count == 0 {
            break;
        }
    }
    assert!(found == expected);
    assert_eq!(stream.length(), bytes.len() as u64);
}

/// A source that fails.
struct Broken;

impl Read for Broken {
    fn read(&mut self, _: &mut [u8]) -> io::Result<usize> {
        Err(io::ErrorKind::ConnectionReset.into())
    }
}

#[test]
fn a_source_that_fails_changes_nothing() {
    let frame = write_frame(&[0x3e, 0xd0]).expect("a frame");
    let mut stream = FrameStream::new();
    stream.push(&frame[..5]);
    let error = stream.read_from(&mut Broken).expect_err("a failure");
    assert_eq!((error.kind(), stream.length()), (io::ErrorKind::ConnectionReset, 5));
    stream.push(&frame[5..]);
    assert_eq!(whole(&mut stream).len(), 1);
}
