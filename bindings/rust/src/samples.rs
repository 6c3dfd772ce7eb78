//! A vendor's sample answers: writing a file of them, and checking one.

use crate::rows::{length_of, written};
use crate::{ffi, Component, Position, Refusal};
use std::fmt;

/// The bytes of a file of sample answers before its message.
pub const SAMPLES_HEAD: usize = 3;
/// The bytes of a point in a file of sample answers.
pub const SAMPLE_SIZE: usize = 28;
/// The points of a file of sample answers at most.
pub const MOST_SAMPLES: usize = 1_000;

/// A component asked for at a position.
#[derive(Clone, Copy, PartialEq, Eq, Hash, Debug)]
pub struct Sample {
    /// The component.
    pub component: Component,
    /// The position.
    pub position: Position,
}

/// Why a file of sample answers is not accepted.
#[derive(Clone, Copy, PartialEq, Eq, Hash, Debug)]
pub enum NotAccepted {
    /// The file is of another shape (LAYOUT), or its message is refused.
    Refused(Refusal),
    /// The point at this place, counted from 1, is the first that is refused or has another count than it claims.
    Claim(usize),
}

impl NotAccepted {
    /// The refusal, CLAIM for a bad point.
    pub fn refusal(self) -> Refusal {
        match self {
            NotAccepted::Refused(refusal) => refusal,
            NotAccepted::Claim(_) => Refusal::Claim,
        }
    }
}

impl fmt::Display for NotAccepted {
    /// The refusal, with the place of a bad point.
    fn fmt(&self, f: &mut fmt::Formatter) -> fmt::Result {
        match self {
            NotAccepted::Refused(refusal) => refusal.fmt(f),
            NotAccepted::Claim(place) => write!(f, "{}, point {place}", Refusal::Claim),
        }
    }
}

impl std::error::Error for NotAccepted {}

/// Gives a file of sample answers.
///
/// The file holds the grid message, and each point with that component's count of [`shifts_at`](crate::shifts_at);
/// docs/SAMPLES.md has its form. [`check_samples`] accepts it.
///
/// Refusals: SHORT, NUMBER, LENGTH, FILL, RANGE, KIND of the message; of the first refused point POSITION, OFF, METHOD,
/// ORIGIN, SPACING, OUTSIDE, ABSENT; LENGTH above [`MOST_SAMPLES`] points.
///
/// ```
/// use tarnoklej::{check_samples, example, write_samples, Component, NotAccepted, Refusal, Sample};
///
/// let middle = Sample { component: Component::Height, position: example::MIDDLE };
/// let mut file = write_samples(&example::grid_k(), &[middle])?;
/// assert_eq!(file.len(), 104);
/// assert_eq!(file[76..80], [2, 0, 25, 2]);
/// assert_eq!(file[96..], 469_285i64.to_be_bytes());
/// assert_eq!(check_samples(&file), Ok(()));
/// file[103] += 1;
/// assert_eq!(check_samples(&file), Err(NotAccepted::Claim(1)));
///
/// let horizontal = Sample { component: Component::NorthSouth, ..middle };
/// assert_eq!(write_samples(&example::grid_k(), &[horizontal]), Err(Refusal::Off));
/// # Ok::<(), Refusal>(())
/// ```
pub fn write_samples(message: &[u8], points: &[Sample]) -> Result<Vec<u8>, Refusal> {
    let counted = points.len().min(MOST_SAMPLES);
    let mut out = vec![0; SAMPLES_HEAD + message.len() + SAMPLE_SIZE * counted];
    let length = write_samples_into(message, points, &mut out);
    written(out, length)
}

/// Writes a file of sample answers into the first bytes of a buffer, keeps the rest, and gives its length.
///
/// The file has [`SAMPLES_HEAD`] bytes, those of the message, and [`SAMPLE_SIZE`] for each point.
///
/// Refusals: those of [`write_samples`] in their order, then ROOM; with a refusal the buffer stays as it was.
pub fn write_samples_into(message: &[u8], points: &[Sample], out: &mut [u8]) -> Result<usize, Refusal> {
    let components: Vec<u8> = points.iter().map(|point| point.component.number()).collect();
    let north: Vec<i64> = points.iter().map(|point| point.position.north).collect();
    let east: Vec<i64> = points.iter().map(|point| point.position.east).collect();
    length_of(ffi::write_samples(message, &components, &north, &east, out))
}

/// Checks a file of sample answers: nothing where its shape and its message are right and every point is answered with the
/// count that it claims.
///
/// Refusals: LAYOUT for any other shape; SHORT, NUMBER, LENGTH, FILL, RANGE, KIND of the message; CLAIM with the place of
/// the first bad point.
///
/// ```
/// use tarnoklej::{check_samples, NotAccepted, Refusal};
///
/// assert_eq!(check_samples(&[]), Err(NotAccepted::Refused(Refusal::Layout)));
/// // A message of no bytes is a right shape.
/// assert_eq!(check_samples(&[1, 0, 0]), Err(NotAccepted::Refused(Refusal::Short)));
/// ```
pub fn check_samples(file: &[u8]) -> Result<(), NotAccepted> {
    let checked = ffi::check_samples(file);
    Refusal::unless_done(checked.refusal).map_err(|refusal| match refusal {
        Refusal::Claim => NotAccepted::Claim(checked.place),
        other => NotAccepted::Refused(other),
    })
}
