//! What positions and counts of a grid message are in: degrees or metres, arc seconds or metres.

use crate::library::{read, Component, Position};

/// The message numbers of grids.
pub const GRIDS: [u16; 2] = [1023, 1024];

/// The units of a grid message.
#[derive(Clone, Copy, PartialEq, Eq, Debug)]
pub enum Units {
    /// Positions in degrees, horizontal shifts in arc seconds: 1023.
    Ellipsoidal,
    /// All in metres: 1024, and every message that is no grid.
    Plane,
}

impl Units {
    /// The units of a message.
    pub fn of(message: &[u8]) -> Units {
        match read(message) {
            Ok(header) if header.number == 1023 => Units::Ellipsoidal,
            _ => Units::Plane,
        }
    }

    /// Steps in one degree or metre.
    pub fn steps_in_one(self) -> i64 {
        match self {
            Units::Ellipsoidal => Position::STEPS_PER_DEGREE,
            Units::Plane => Position::STEPS_PER_METRE,
        }
    }

    /// The decimals of a count of a component as arc seconds or metres, and its unit.
    pub fn of_count(self, component: Component) -> (usize, &'static str) {
        match (self, component) {
            (Units::Ellipsoidal, Component::NorthSouth | Component::EastWest) => (5, "arc seconds"),
            _ => (4, "m"),
        }
    }
}
