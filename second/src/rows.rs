//! A row of one component's counts at equal steps east, each place on its own (document 02, A6).

use crate::grid::{count_at, grid_message, within_limits, COMPONENTS};
use crate::refusal::Refusal;

/// The most places of a row.
pub const MOST_PLACES: usize = 4_096;

/// What a row is asked for: a component, the position of its first place, the step east and the places.
#[derive(Clone, Copy, Debug)]
pub struct Ask {
    /// The component, 0 to 2.
    pub component: u8,
    /// The position of the first place, north and east.
    pub start: [i64; 2],
    /// The steps east from one place to the next.
    pub step: i64,
    /// How many places the row has.
    pub count: usize,
}

impl Ask {
    /// The position of a place, counted from 0.
    fn place(&self, place: usize) -> [i128; 2] {
        let [north, east] = self.start.map(i128::from);
        [north, east + place as i128 * i128::from(self.step)]
    }
}

/// The counts of a row, with refusals 1 to 5, KIND, COMPONENT, POSITION, 10 to 15 of the first place refused, and ROOM.
pub fn shift_row(bytes: &[u8], ask: &Ask, room: usize) -> Result<Vec<i64>, Refusal> {
    let (message, plan) = grid_message(bytes)?;
    let component = usize::from(ask.component);
    if component >= COMPONENTS {
        return Err(Refusal::Component);
    }
    if !(1..=MOST_PLACES).contains(&ask.count) || ask.step < 0 {
        return Err(Refusal::Position);
    }
    let places: Vec<[i128; 2]> = (0..ask.count).map(|place| ask.place(place)).collect();
    if !places.iter().all(|&position| within_limits(plan, position)) {
        return Err(Refusal::Position);
    }
    let counts: Result<Vec<i64>, Refusal> =
        places.iter().map(|&position| count_at(&message, plan, component, position)).collect();
    let counts = counts?;
    if counts.len() > room {
        return Err(Refusal::Room);
    }
    Ok(counts)
}

/// A buffer after the call that asks for a row, and the refusal number: the first places hold the counts, the rest keep theirs.
pub fn fill(bytes: &[u8], ask: &Ask, row: &mut [i64]) -> u8 {
    match shift_row(bytes, ask, row.len()) {
        Err(refusal) => refusal.number(),
        Ok(counts) => {
            row[..counts.len()].copy_from_slice(&counts);
            0
        }
    }
}
