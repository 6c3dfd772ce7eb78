//! The geometry of a map: the grid of a message, and the places at which its shifts are asked for.

use crate::grid::Units;
use crate::library::{Position, Refusal, MOST_FIELDS, NODES};

/// Places between two neighbouring nodes.
pub const IN_A_CELL: i64 = 100;
/// Places beyond the outer nodes, on each side.
pub const MARGIN: i64 = 20;
/// Places of a row, and rows.
pub const SIDE: usize = (3 * IN_A_CELL + 2 * MARGIN) as usize;
/// Steps in a whole turn of longitude.
const TURN: i64 = 360 * Position::STEPS_PER_DEGREE;

/// Where a grid stands, in steps.
pub struct Plan {
    pub units: Units,
    /// The middle.
    pub origin: Position,
    /// The spacing of nodes, north and east.
    pub spacing: [i64; 2],
}

impl Plan {
    /// The plan of a grid message's row, or why it has none.
    pub fn of(units: Units, row: &[Option<i64>; MOST_FIELDS]) -> Result<Plan, Refusal> {
        let steps = match units {
            Units::Ellipsoidal => 5_000,
            Units::Plane => 10_000,
        };
        let in_steps = |place: usize| row[place].map(|raw| raw * steps);
        let (Some(north), Some(east)) = (in_steps(4), in_steps(5)) else { return Err(Refusal::Origin) };
        match (in_steps(6), in_steps(7)) {
            (Some(to_north @ 1..), Some(to_east @ 1..)) => {
                Ok(Plan { units, origin: Position::new(north, east), spacing: [to_north, to_east] })
            }
            _ => Err(Refusal::Spacing),
        }
    }

    /// Steps from a place to its neighbour, north and east; a spacing is a whole number of them.
    pub fn place_size(&self) -> [i64; 2] {
        self.spacing.map(|spacing| spacing / IN_A_CELL)
    }

    /// The middle of the first place of a row, rows being counted from the north.
    pub fn first_of_row(&self, row: usize) -> Position {
        let [north, east] = self.place_size();
        let half_side = SIDE as i64 * north / 2;
        Position::new(
            self.origin.north + half_side - north / 2 - row as i64 * north,
            self.origin.east - SIDE as i64 * east / 2 + east / 2,
        )
    }

    /// The position of a node, from 0 in the order of the message.
    pub fn node(&self, index: usize) -> Position {
        let (row, column) = (index as i64 / 4, index as i64 % 4);
        Position::new(
            self.origin.north + (3 - 2 * row) * self.spacing[0] / 2,
            self.origin.east + (2 * column - 3) * self.spacing[1] / 2,
        )
    }

    /// All nodes.
    pub fn nodes(&self) -> [Position; NODES] {
        std::array::from_fn(|index| self.node(index))
    }

    /// A position with its longitude from -180 to 180 degrees, as the library takes it.
    pub fn within_turn(&self, position: Position) -> Position {
        if self.units == Units::Plane {
            return position;
        }
        let east = (position.east + TURN / 2).rem_euclid(TURN) - TURN / 2;
        Position::new(position.north, east)
    }

    /// How many places from a position on stand before the meridian of 180 degrees, at least one.
    pub fn before_half_turn(&self, first: Position, places: usize) -> usize {
        if self.units == Units::Plane {
            return places;
        }
        let room = (TURN / 2 - self.within_turn(first).east) / self.place_size()[1] + 1;
        places.min(room.max(1) as usize)
    }

    /// The proportion of a place's height to its width on the ground, kept within what can be drawn.
    pub fn proportion(&self) -> f64 {
        let shortening = match self.units {
            Units::Ellipsoidal => (self.origin.north as f64 / Position::STEPS_PER_DEGREE as f64).to_radians().cos(),
            Units::Plane => 1.0,
        };
        let [north, east] = self.spacing.map(|spacing| spacing as f64);
        (north / (east * shortening.max(0.01))).clamp(0.6, 1.4)
    }
}
