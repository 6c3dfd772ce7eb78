//! Transport frames: byte D3, six zero bits, a ten-bit length, the message, and the CRC-24Q of all these.

use crate::rows::{length_of, written};
use crate::{ffi, Refusal};
use std::fmt;
use std::iter::FusedIterator;

/// The bytes of a frame before its message: D3, six zero bits and the length.
pub const FRAME_HEAD: usize = 3;
/// The bytes of a frame behind its message, which are its CRC-24Q.
pub const FRAME_TAIL: usize = 3;
/// The bytes of the longest message that a frame holds.
pub const MOST_FRAMED: usize = 1_023;

/// A frame found in a buffer.
#[derive(Clone, Copy, PartialEq, Eq, Debug)]
pub struct Frame<'buffer> {
    /// The place of the frame's D3.
    pub at: usize,
    /// The frame's message, which is the part of the buffer itself and not a copy.
    pub message: &'buffer [u8],
}

impl Frame<'_> {
    /// The place behind the frame's last byte, from where the next frame is searched for.
    pub fn end(&self) -> usize {
        self.at + FRAME_HEAD + self.message.len() + FRAME_TAIL
    }
}

/// Why no frame is found.
#[derive(Clone, Copy, PartialEq, Eq, Debug)]
pub enum Missing {
    /// The unfinished frame whose D3 is at this place calls for bytes that have not arrived.
    Need(usize),
    /// There is neither a frame nor an unfinished one.
    NoFrame,
}

impl Missing {
    /// The refusal, NEED or NOFRAME.
    pub fn refusal(self) -> Refusal {
        match self {
            Missing::Need(_) => Refusal::Need,
            Missing::NoFrame => Refusal::NoFrame,
        }
    }
}

impl fmt::Display for Missing {
    /// The refusal, with the place of an unfinished frame.
    fn fmt(&self, f: &mut fmt::Formatter) -> fmt::Result {
        match self {
            Missing::Need(at) => write!(f, "{}, at byte {at}", Refusal::Need),
            Missing::NoFrame => Refusal::NoFrame.fmt(f),
        }
    }
}

impl std::error::Error for Missing {}

/// Gives the first frame at or after a place.
///
/// An unfinished frame that comes before it, or where there is none, is given as [`Missing::Need`]: a D3 that is the last
/// byte, or a D3 with six zero bits whose length, message or CRC reaches past the end. A start past the end is
/// [`Missing::NoFrame`].
///
/// ```
/// use tarnoklej::{find_frame, write_frame_into, Frame, Missing};
///
/// let mut bytes = [0; 12];
/// write_frame_into(&[0x3e, 0xd0], &mut bytes[2..10])?;
/// assert_eq!(find_frame(&bytes, 0), Ok(Frame { at: 2, message: &[0x3e, 0xd0] }));
/// assert_eq!(find_frame(&bytes[..9], 0), Err(Missing::Need(2)));
/// assert_eq!(find_frame(&bytes, 3), Err(Missing::NoFrame));
/// assert_eq!(find_frame(&bytes, 13), Err(Missing::NoFrame));
/// # Ok::<(), tarnoklej::Refusal>(())
/// ```
pub fn find_frame(bytes: &[u8], from: usize) -> Result<Frame<'_>, Missing> {
    let found = ffi::find_frame(bytes, from);
    match Refusal::unless_done(found.refusal) {
        Ok(()) => {
            let first = found.at + FRAME_HEAD;
            Ok(Frame { at: found.at, message: &bytes[first..first + found.length] })
        }
        Err(Refusal::Need) => Err(Missing::Need(found.at)),
        Err(_) => Err(Missing::NoFrame),
    }
}

/// Gives the frame of a message of any number, which is not looked at.
///
/// Refusals: LENGTH above [`MOST_FRAMED`] bytes.
///
/// ```
/// use tarnoklej::{write_frame, Refusal};
///
/// assert_eq!(write_frame(&[]), Ok(vec![0xd3, 0, 0, 0x47, 0xea, 0x4b]));
/// assert_eq!(write_frame(&[0; 1_024]), Err(Refusal::Length));
/// ```
pub fn write_frame(message: &[u8]) -> Result<Vec<u8>, Refusal> {
    let mut out = vec![0; FRAME_HEAD + message.len().min(MOST_FRAMED) + FRAME_TAIL];
    let length = write_frame_into(message, &mut out);
    written(out, length)
}

/// Writes the frame of a message of any number into the first bytes of a buffer, keeps the rest, and gives its length.
///
/// Refusals: LENGTH above [`MOST_FRAMED`] bytes, ROOM; with a refusal the buffer stays as it was.
///
/// ```
/// use tarnoklej::{write_frame_into, Refusal};
///
/// let mut out = [0xff; 7];
/// assert_eq!(write_frame_into(&[], &mut out), Ok(6));
/// assert_eq!(out, [0xd3, 0, 0, 0x47, 0xea, 0x4b, 0xff]);
/// assert_eq!(write_frame_into(&[0x3e, 0xd0], &mut out), Err(Refusal::Room));
/// ```
pub fn write_frame_into(message: &[u8], out: &mut [u8]) -> Result<usize, Refusal> {
    length_of(ffi::write_frame(message, out))
}

/// The frames of a buffer in order, each searched for from the last one's end.
#[derive(Clone, Debug)]
pub struct Frames<'buffer> {
    bytes: &'buffer [u8],
    from: usize,
    need: Option<usize>,
}

/// Gives the frames of a buffer from a place on; at its end the iterator says in [`Frames::need`] what is needed.
///
/// For bytes that arrive one after another there is [`FrameStream`](crate::FrameStream).
///
/// ```
/// use tarnoklej::{frames, message_number, write_frame};
///
/// let bytes = [write_frame(&[0x3e, 0xd0])?, write_frame(&[0x3f, 0xf0, 0x10])?, vec![0xd3, 0, 0]].concat();
/// let mut found = frames(&bytes, 0);
/// let numbers: Vec<Option<u16>> = found.by_ref().map(|frame| message_number(frame.message)).collect();
/// assert_eq!(numbers, [Some(1005), Some(1023)]);
/// // The bytes from place 17 on are kept until more have arrived.
/// assert_eq!(found.need(), Some(17));
/// // Where the stream has ended, the search goes on one byte behind.
/// assert_eq!(frames(&bytes, 18).next(), None);
/// # Ok::<(), tarnoklej::Refusal>(())
/// ```
pub fn frames(bytes: &[u8], from: usize) -> Frames<'_> {
    Frames { bytes, from, need: None }
}

impl Frames<'_> {
    /// The place of the unfinished frame at which the frames have ended, or nothing where they end without one.
    ///
    /// Until the iterator has given `None`, this is nothing.
    pub fn need(&self) -> Option<usize> {
        self.need
    }
}

impl<'buffer> Iterator for Frames<'buffer> {
    type Item = Frame<'buffer>;

    /// The next frame.
    fn next(&mut self) -> Option<Frame<'buffer>> {
        match find_frame(self.bytes, self.from) {
            Ok(frame) => {
                self.from = frame.end();
                Some(frame)
            }
            Err(missing) => {
                self.need = if let Missing::Need(at) = missing { Some(at) } else { None };
                None
            }
        }
    }
}

impl FusedIterator for Frames<'_> {}
