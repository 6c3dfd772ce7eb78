//! RTCM messages 1021 to 1027 and transport frames: safe functions over a library that is proved.
//!
//! A service sends the way from its coordinates to the user's in messages 1021 to 1027. This crate finds them in a stream,
//! reads and writes them, and gives what they say: the shifts of a grid at a position, the datum step of a 1021.
//!
//! ```
//! use tarnoklej::{example, read, shifts_at, write_frame, FrameStream, Position, Refusal};
//!
//! // The bytes of a stream, as they may arrive from a receiver; here a frame between other bytes.
//! let bytes = [b"noise".to_vec(), write_frame(&example::grid_k())?, b"noise".to_vec()].concat();
//! let mut stream = FrameStream::new();
//! for byte in bytes {
//!     stream.push(&[byte]);
//!     while let Some(frame) = stream.next_frame() {
//!         let header = read(frame.message)?;
//!         assert_eq!((frame.at, header.number, header.sin), (5, 1023, 7));
//!         let shifts = shifts_at(frame.message, Position::from_degrees(49.0, 11.0));
//!         assert_eq!(shifts.height?.to_string(), "46.9285 m");
//!         assert_eq!(shifts.north, Err(Refusal::Off));
//!     }
//! }
//! # Ok::<(), Refusal>(())
//! ```
//!
//! # Refusals
//! Every call ends with an answer for every input, keeps nothing between calls, and gives a [`Refusal`] where it does not do
//! what it was asked for. The refusals of each function are listed in the order of their tests: the first that applies is given.
//!
//! # Rows
//! A row holds the fields of a message in wire order, DF002 first; a field is a value, or `None` where it is not available.
//! Only fields of type intN can be `None`. A name is its counter and then its characters, one field each.
//! include/tarnoklej.h lists the positions of the data fields in a row; a [`Message`] knows them by their DF numbers, with name,
//! resolution and unit.
//!
//! # Buffers
//! Functions that write come twice: one gives a `Vec`, and one whose name ends with `_into` fills the first places of a buffer.
//! The library itself allocates nothing; this crate allocates what it gives as a `Vec` or a [`Message`], the bytes of a
//! [`FrameStream`], and the two or three lists of numbers into which points are taken apart.
//!
//! # What is proved
//! The library's calls are proved to do what include/tarnoklej.h says of them, for every input. This crate hands them slices and
//! gives their answers as Rust types; it is tested and not proved. All unsafe code stands in [`ffi`]. What is Rust alone, and not
//! proved either, is [`Message`] with its names and units, [`FrameStream`] around the search for a frame, and the conversions from
//! degrees and metres.

#![deny(unsafe_code)]
#![warn(missing_docs)]

mod choices;
mod datum;
pub mod example;
#[allow(unsafe_code)]
pub mod ffi;
mod fields;
mod frames;
mod heights;
mod layouts;
mod message;
mod positions;
mod refusal;
mod reports;
mod rows;
mod samples;
mod shifts;
mod stream;
mod tables;
mod units;

pub use choices::{Component, Group, Owner};
pub use datum::{datum_step, FARTHEST};
pub use fields::{DataField, FieldType};
pub use frames::{
    find_frame, frames, write_frame, write_frame_into, Frame, Frames, Missing, FRAME_HEAD, FRAME_TAIL, MOST_FRAMED,
};
pub use heights::{write_heights, write_heights_into};
pub use layouts::NODES;
pub use message::{Field, Message};
pub use positions::{Geocentric, Position};
pub use refusal::Refusal;
pub use reports::{report_points, Extreme, Report, MOST_POINTS};
pub use rows::{message_number, read, read_fields, read_fields_into, write_fields, write_fields_into, Header};
pub use samples::{
    check_samples, write_samples, write_samples_into, NotAccepted, Sample, MOST_SAMPLES, SAMPLES_HEAD, SAMPLE_SIZE,
};
pub use shifts::{shift_row, shifts_at, Shift, Shifts, MOST_PLACES};
pub use stream::{FrameStream, StreamFrame};
pub use tables::{
    find, index_agrees, remove, store, write_index, Found, Key, Table, INDEX_SIZE, MOST_PROBES, OWNER_SLOTS, SLOTS,
    SLOT_SIZE, TABLE_SIZE,
};
pub use units::{Quantity, Resolution, Unit};

/// The bytes of the longest message, a 1022 of two names of 31 characters.
pub const MOST_BYTES: usize = 127;
/// The fields of the longest row, of the same message.
pub const MOST_FIELDS: usize = 90;

/// The library that was linked, and where it comes from, as build.rs chose it.
///
/// It is the library's file, and in brackets whether it is static or shared, and whether it was named by the environment,
/// installed, or built in the repository. README.md of this crate says how it is chosen.
pub const LIBRARY: &str = env!("TARNOKLEJ_LINKED");

/// The program of README.md, which the tests compile.
#[cfg(doctest)]
#[doc = include_str!("../README.md")]
struct Readme;
