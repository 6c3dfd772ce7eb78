//! The counts of one component at the places of a map, by rows of shifts.

use crate::library::{shift_row, Component, Position, Refusal};
use crate::map_plan::{Plan, SIDE};

/// A grid message and one component of it.
pub struct Shown<'a> {
    pub message: &'a [u8],
    pub component: Component,
    pub plan: &'a Plan,
}

/// Whether another place of the grid may be answered where one is refused so.
pub fn is_of_place(refusal: Refusal) -> bool {
    matches!(refusal, Refusal::Position | Refusal::Outside | Refusal::Absent)
}

/// The counts of all places, row by row from the north, none where a place is refused.
pub fn counts(shown: &Shown) -> Vec<Option<i64>> {
    let mut counts = vec![None; SIDE * SIDE];
    for (row, places) in counts.chunks_mut(SIDE).enumerate() {
        fill(shown, shown.plan.first_of_row(row), places);
    }
    counts
}

/// Fills a part of a row; a part that is refused is asked for again in halves, and one across 180 degrees in two parts.
fn fill(shown: &Shown, first: Position, places: &mut [Option<i64>]) {
    let step = shown.plan.place_size()[1];
    let before = shown.plan.before_half_turn(first, places.len());
    let split = match before == places.len() {
        false => before,
        true => {
            let mut row = vec![0; places.len()];
            match shift_row(shown.message, shown.component, shown.plan.within_turn(first), step, &mut row) {
                Ok(()) => return places.iter_mut().zip(row).for_each(|(place, count)| *place = Some(count)),
                Err(refusal) if places.len() == 1 || !is_of_place(refusal) => return,
                Err(_) => places.len() / 2,
            }
        }
    };
    let (west, east) = places.split_at_mut(split);
    fill(shown, first, west);
    fill(shown, Position::new(first.north, first.east + split as i64 * step), east);
}
