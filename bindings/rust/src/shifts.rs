//! Shifts of a grid message at positions.

use crate::units::{Quantity, Resolution, Unit};
use crate::{ffi, Component, Position, Refusal};
use std::fmt;

/// The places of the longest row of shifts.
pub const MOST_PLACES: usize = 4_096;

/// One component's shift at a position.
///
/// It is printed exactly, with all decimal places of its count:
///
/// ```
/// use tarnoklej::{example, shifts_at};
///
/// let height = shifts_at(&example::grid_k(), example::MIDDLE).height?;
/// assert_eq!(height.to_string(), "46.9285 m");
/// # Ok::<(), tarnoklej::Refusal>(())
/// ```
#[derive(Clone, Copy, PartialEq, Debug)]
pub struct Shift {
    /// The shift in its unit, the double nearest to it.
    pub value: f64,
    /// The unit: arc seconds for north-south and east-west of a 1023, else metres.
    pub unit: Unit,
    /// The shift in counts, of 0.00001 arc second or of 0.1 mm.
    pub count: i64,
}

impl Shift {
    /// The shift as an exact number.
    pub fn quantity(&self) -> Quantity {
        let decimals = if self.unit == Unit::ArcSecond { 5 } else { 4 };
        Quantity { count: self.count, resolution: Resolution { step: 1, decimals }, unit: Some(self.unit) }
    }
}

impl fmt::Display for Shift {
    /// The exact shift with its unit.
    fn fmt(&self, f: &mut fmt::Formatter) -> fmt::Result {
        self.quantity().fmt(f)
    }
}

/// The shifts at a position, each part with its own refusal.
#[derive(Clone, Copy, PartialEq, Debug)]
pub struct Shifts {
    /// The shift north-south.
    pub north: Result<Shift, Refusal>,
    /// The shift east-west.
    pub east: Result<Shift, Refusal>,
    /// The shift of the height.
    pub height: Result<Shift, Refusal>,
}

impl Shifts {
    /// The part of a component.
    pub fn of(&self, component: Component) -> Result<Shift, Refusal> {
        match component {
            Component::NorthSouth => self.north,
            Component::EastWest => self.east,
            Component::Height => self.height,
        }
    }
}

/// Gives the shifts north-south, east-west and of the height at a position from a message 1023 or 1024.
///
/// Each part is answered or refused for itself. Interpolation is bilinear: a count is the mean and the whole number nearest to
/// the exact weighted mean of the cell's nodes, halves away from zero, and the shift is that count divided once.
/// For 1023 the difference of longitudes to the grid's origin is taken the short way round, so a grid may lie across
/// 180 degrees, and -180 and +180 degrees get the same answer.
/// A height is corrected by subtracting the shift; that is the caller's work.
///
/// Refusals, for each part: SHORT, NUMBER, LENGTH, FILL, RANGE, KIND, POSITION, OFF, METHOD, ORIGIN, SPACING, OUTSIDE,
/// ABSENT.
///
/// ```
/// use tarnoklej::{example, shifts_at, Refusal, Shift, Unit};
///
/// let shifts = shifts_at(&example::grid_k(), example::MIDDLE);
/// assert_eq!(shifts.height, Ok(Shift { value: 46.9285, unit: Unit::Metre, count: 469_285 }));
/// assert_eq!(shifts.north, Err(Refusal::Off));
///
/// // Without the height of node 6, which has weight there, no mean is formed.
/// let mut grid = example::grid_k_fields();
/// grid.set_node(201, 6, None)?;
/// assert_eq!(shifts_at(&grid.write()?, example::MIDDLE).height, Err(Refusal::Absent));
/// # Ok::<(), Refusal>(())
/// ```
pub fn shifts_at(message: &[u8], position: Position) -> Shifts {
    let at = ffi::shifts_at(message, position.north, position.east);
    let part = |refusal: u8, count: i64, value: f64, unit: u8| {
        Refusal::unless_done(refusal)?;
        let unit = Unit::of_shift(unit).expect("an answered part has a unit");
        Ok(Shift { value, unit, count })
    };
    Shifts {
        north: part(at.north_refusal, at.north_count, at.north, at.north_unit),
        east: part(at.east_refusal, at.east_count, at.east, at.east_unit),
        height: part(at.height_refusal, at.height_count, at.height, at.height_unit),
    }
}

/// Fills a row with one component's counts at equal steps east.
///
/// The first place is the position given, and each next one is a step further east. Each number is that component's count of
/// [`shifts_at`] at its place. A map is drawn by such rows.
/// A row has 1 to [`MOST_PLACES`] places and a step of 0 or more. For 1023 a step of a whole turn, from -180 to +180
/// degrees, is allowed and gives the same count twice.
///
/// Refusals: SHORT, NUMBER, LENGTH, FILL, RANGE, KIND; POSITION (no place, too many, a negative step, or any place past the
/// limits); OFF, METHOD, ORIGIN, SPACING, OUTSIDE, ABSENT, that of the first place refused. With a refusal the row stays as
/// it was.
///
/// ```
/// use tarnoklej::{example, shift_row, Component, Refusal};
///
/// // From node 6 by twentieths of the way to node 7.
/// let grid = example::grid_k();
/// let mut row = [0; 4];
/// shift_row(&grid, Component::Height, example::NODE_6, 180_000, &mut row)?;
/// assert_eq!(row, [469_260, 469_261, 469_261, 469_262]);
/// let far = shift_row(&grid, Component::Height, example::NODE_6, 3_600_000, &mut row);
/// assert_eq!(far, Err(Refusal::Outside));
/// # Ok::<(), Refusal>(())
/// ```
pub fn shift_row(
    message: &[u8],
    component: Component,
    first: Position,
    step: i64,
    row: &mut [i64],
) -> Result<(), Refusal> {
    Refusal::unless_done(ffi::shift_row(message, component.number(), first.north, first.east, step, row))
}
