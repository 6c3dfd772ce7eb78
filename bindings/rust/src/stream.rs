//! The frames of a stream whose bytes arrive one after another.

use crate::frames::{find_frame, Missing};
use std::io::{self, Read};

/// The bytes that one reading asks for.
const CHUNK: usize = 65_536;

/// The frames of a stream, found as its bytes arrive.
///
/// Bytes are [pushed](FrameStream::push) or [read](FrameStream::read_from), and [`FrameStream::next_frame`] gives the frames
/// among them in order. Only the bytes from an unfinished frame on are kept, so the memory does not grow with the stream.
/// A frame is found as soon as its last byte has arrived. Where the stream has [ended](FrameStream::end), frames that stand
/// behind an unfinished one are given too: so the frames are those of the whole stream, however it was cut.
///
/// ```
/// use tarnoklej::{write_frame, FrameStream};
///
/// let bytes = [write_frame(&[0x3e, 0xd0])?, vec![0, 0xd3, 3], write_frame(&[0x3f, 0xf0])?].concat();
/// let mut stream = FrameStream::new();
/// stream.push(&bytes[..7]);
/// assert!(stream.next_frame().is_none());
/// stream.push(&bytes[7..]);
/// let first = stream.next_frame().expect("the first frame is whole");
/// assert_eq!((first.at, first.message), (0, &[0x3e, 0xd0][..]));
/// // The D3 at byte 9 calls for more bytes than have arrived.
/// assert!(stream.next_frame().is_none());
/// assert_eq!(stream.need(), Some(9));
/// stream.end();
/// let second = stream.next_frame().expect("the second frame is whole");
/// assert_eq!((second.at, second.message), (11, &[0x3f, 0xf0][..]));
/// assert!(stream.next_frame().is_none());
/// assert_eq!((stream.need(), stream.length(), stream.outside()), (None, 19, 3));
/// # Ok::<(), tarnoklej::Refusal>(())
/// ```
#[derive(Clone, Debug, Default)]
pub struct FrameStream {
    /// The bytes that are kept.
    bytes: Vec<u8>,
    /// The place of the first kept byte in the stream.
    start: u64,
    /// The place among the kept bytes from which the next frame is searched for.
    from: usize,
    /// The bytes of all frames that were given.
    inside: u64,
    /// Whether the kept bytes begin with an unfinished frame, for all that has arrived.
    needs: bool,
    ended: bool,
}

/// A frame of a stream.
#[derive(Clone, Copy, PartialEq, Eq, Hash, Debug)]
pub struct StreamFrame<'stream> {
    /// The place of the frame's D3 in the stream.
    pub at: u64,
    /// The bytes of the frame, of which the message is a part.
    pub bytes: &'stream [u8],
    /// The frame's message.
    pub message: &'stream [u8],
}

impl FrameStream {
    /// A stream of which no byte has arrived.
    pub fn new() -> Self {
        FrameStream::default()
    }

    /// Takes bytes that have arrived.
    pub fn push(&mut self, bytes: &[u8]) {
        self.forget();
        self.needs = false;
        self.bytes.extend_from_slice(bytes);
    }

    /// Takes the bytes that one reading gives, waiting for them as the source does, and gives their count; 0 is the end of the
    /// stream.
    pub fn read_from(&mut self, source: &mut impl Read) -> io::Result<usize> {
        self.forget();
        let kept = self.bytes.len();
        self.bytes.resize(kept + CHUNK, 0);
        let count = loop {
            match source.read(&mut self.bytes[kept..]) {
                Err(error) if error.kind() == io::ErrorKind::Interrupted => continue,
                other => break other,
            }
        };
        let arrived = count.as_ref().map_or(0, |&count| count);
        self.bytes.truncate(kept + arrived);
        self.needs &= arrived == 0;
        if let Ok(0) = count {
            self.end();
        }
        count
    }

    /// Says that no more bytes arrive.
    pub fn end(&mut self) {
        self.ended = true;
    }

    /// The next frame, or nothing where none is whole yet.
    pub fn next_frame(&mut self) -> Option<StreamFrame<'_>> {
        let found = loop {
            match find_frame(&self.bytes, self.from) {
                Ok(frame) => break frame.at..frame.end(),
                Err(Missing::Need(at)) if self.ended => self.from = at + 1,
                Err(missing) => {
                    self.needs = matches!(missing, Missing::Need(_));
                    self.from = if let Missing::Need(at) = missing { at } else { self.bytes.len() };
                    self.forget();
                    return None;
                }
            }
        };
        self.from = found.end;
        self.inside += found.len() as u64;
        self.needs = false;
        let at = self.start + found.start as u64;
        let bytes = &self.bytes[found];
        let message = &bytes[crate::FRAME_HEAD..bytes.len() - crate::FRAME_TAIL];
        Some(StreamFrame { at, bytes, message })
    }

    /// The place in the stream of the unfinished frame that [`FrameStream::next_frame`] waits for, or nothing where it gave
    /// nothing without one.
    pub fn need(&self) -> Option<u64> {
        self.needs.then_some(self.start)
    }

    /// The bytes that have arrived.
    pub fn length(&self) -> u64 {
        self.start + self.bytes.len() as u64
    }

    /// The bytes that have arrived and stand in no frame that was given.
    pub fn outside(&self) -> u64 {
        self.length() - self.inside
    }

    /// The bytes that are kept in memory.
    pub fn kept(&self) -> usize {
        self.bytes.len()
    }

    /// Drops the bytes that no search looks at any more.
    fn forget(&mut self) {
        self.bytes.drain(..self.from);
        self.start += self.from as u64;
        self.from = 0;
    }
}
