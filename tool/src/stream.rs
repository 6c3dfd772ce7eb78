//! The pieces of a stream as its bytes arrive, in memory that does not grow with the stream.

use crate::bits;
use crate::library::{FrameStream, MOST_FRAMED};
use std::io::{ErrorKind, Read};

/// Bytes that are read at once, at most.
const READ_AT_ONCE: usize = 1 << 16;

/// What takes the pieces of a stream.
pub trait Pieces {
    type Failure;
    /// Bytes that are in no frame.
    fn outside(&mut self, at: u64, length: u64) -> Result<(), Self::Failure>;
    /// A message in the frame at a place, or a bare one.
    fn message(&mut self, at: u64, framed: bool, message: &[u8]) -> Result<(), Self::Failure>;
    /// All that has arrived so far is worked through: so many bytes.
    fn pause(&mut self, bytes: u64) -> Result<(), Self::Failure>;
}

/// Why a stream is not read to its end.
pub enum Stopped<F> {
    /// It cannot be read.
    Unreadable(std::io::Error),
    /// What takes the pieces has failed.
    Taker(F),
}

impl<F> From<F> for Stopped<F> {
    fn from(failure: F) -> Self {
        Stopped::Taker(failure)
    }
}

/// A stream that is being read.
#[derive(Default)]
struct Reading {
    stream: FrameStream,
    /// The place in the stream behind the last frame.
    done: u64,
    frames: u64,
    /// The first bytes of the stream: as many as a bare message can have, and one more.
    first: Vec<u8>,
}

impl Reading {
    /// Takes bytes that have arrived.
    fn take(&mut self, arrived: &[u8]) {
        let wanted = (MOST_FRAMED + 1 - self.first.len()).min(arrived.len());
        self.first.extend_from_slice(&arrived[..wanted]);
        self.stream.push(arrived);
    }

    /// Gives the frames that are there, and the bytes between them.
    fn give_frames<P: Pieces>(&mut self, pieces: &mut P) -> Result<(), P::Failure> {
        while let Some(frame) = self.stream.next_frame() {
            give_outside(pieces, self.done, frame.at)?;
            pieces.message(frame.at, true, frame.message)?;
            self.done = frame.at + frame.bytes.len() as u64;
            self.frames += 1;
        }
        Ok(())
    }

    /// Whether the stream that has ended is one message without a frame.
    fn is_bare_message(&self) -> bool {
        let known = bits::number(&self.first).is_some_and(|number| (1021..=1027).contains(&number));
        self.frames == 0 && self.first.len() <= MOST_FRAMED && known
    }

    /// Gives what is left where the stream has ended.
    fn finish<P: Pieces>(&mut self, pieces: &mut P) -> Result<(), P::Failure> {
        self.stream.end();
        self.give_frames(pieces)?;
        if self.is_bare_message() {
            pieces.message(0, false, &self.first)
        } else {
            give_outside(pieces, self.done, self.stream.length())
        }
    }
}

/// Gives the bytes from a place to another, if there are any.
fn give_outside<P: Pieces>(pieces: &mut P, from: u64, to: u64) -> Result<(), P::Failure> {
    match to - from {
        0 => Ok(()),
        length => pieces.outside(from, length),
    }
}

/// Gives all pieces of a stream, each as soon as its last byte is there, and the number of its bytes.
pub fn read<P: Pieces>(mut input: impl Read, pieces: &mut P) -> Result<u64, Stopped<P::Failure>> {
    let mut reading = Reading::default();
    let mut arrived = vec![0; READ_AT_ONCE];
    loop {
        match input.read(&mut arrived) {
            Ok(0) => break,
            Ok(count) => {
                reading.take(&arrived[..count]);
                reading.give_frames(pieces)?;
                pieces.pause(reading.stream.length())?;
            }
            Err(error) if error.kind() == ErrorKind::Interrupted => (),
            Err(error) => return Err(Stopped::Unreadable(error)),
        }
    }
    reading.finish(pieces)?;
    Ok(reading.stream.length())
}

#[cfg(test)]
mod tests {
    use super::*;

    /// All pieces of a stream: place, length, and whether it is a message.
    #[derive(Default, PartialEq, Eq, Debug)]
    struct List(Vec<(u64, u64, bool)>);

    impl Pieces for List {
        type Failure = ();

        fn outside(&mut self, at: u64, length: u64) -> Result<(), ()> {
            self.0.push((at, length, false));
            Ok(())
        }

        fn message(&mut self, at: u64, _framed: bool, message: &[u8]) -> Result<(), ()> {
            self.0.push((at, message.len() as u64, true));
            Ok(())
        }

        fn pause(&mut self, _bytes: u64) -> Result<(), ()> {
            Ok(())
        }
    }

    /// The pieces of a stream that arrives in parts.
    fn list(parts: &[&[u8]]) -> List {
        let mut list = List::default();
        let parts = parts
            .iter()
            .fold(Box::new(std::io::empty()) as Box<dyn Read>, |before, part| Box::new(before.chain(*part)));
        assert!(read(parts, &mut list).is_ok());
        list
    }

    #[test]
    fn the_pieces_are_the_same_wherever_the_stream_is_parted() {
        let recording = include_bytes!("../../services/recording.rtcm");
        let whole = list(&[recording]);
        assert!(whole.0.len() > 100);
        for cut in 0..recording.len() {
            assert_eq!(list(&[&recording[..cut], &recording[cut..]]), whole, "parted at {cut}");
        }
    }

    #[test]
    fn a_message_without_a_frame_is_known_by_its_number() {
        let message = include_bytes!("../../examples/1025.rtcm");
        assert_eq!(list(&[&message[..3], &message[3..]]).0, [(0, 25, true)]);
        assert_eq!(list(&[&[0x3e, 0xd0, 0]]).0, [(0, 3, false)]);
        assert_eq!(list(&[&[0x40, 0x10], &[0; 1_021]]).0, [(0, 1_023, true)]);
        assert_eq!(list(&[&[0x40, 0x10], &[0; 1_022]]).0, [(0, 1_024, false)]);
        assert_eq!(list(&[]).0, []);
    }
}
