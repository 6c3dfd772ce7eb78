//! Grid messages to try the shift on.

use crate::fields::Reading;
use crate::samples::Sample;

/// 180 degrees in steps of 1023.
pub const HALF_TURN: i64 = 6_480_000_000;

/// A grid message with its parts at hand.
#[derive(Clone)]
pub struct Grid {
    /// The row of the message.
    pub sample: Sample,
}

impl Grid {
    /// Document 01's grid K.
    pub fn k() -> Grid {
        let mut grid = Grid { sample: Sample::zeros(1023) };
        grid = grid.set(147, 7).set(192, 352_800).set(193, 79_200).set(194, 720).set(195, 720);
        grid = grid.set(190, 0).set(191, 1).set(198, 4_692);
        (1..=16).fold(grid, |grid, node| grid.set_node(2, node, node as i64))
    }

    /// A grid of a number, an origin, spacings, means and nodes, with both shifts on.
    pub fn of<R: Into<Reading>>(
        number: u16,
        origin: [i64; 2],
        spacing: [i64; 2],
        mean: [i64; 3],
        node: impl FnMut(usize, usize) -> R,
    ) -> Grid {
        let grid = Grid { sample: Sample::zeros(number) }.set(147, 9).set(190, 1).set(191, 1);
        let [lat, lon] = grid.origin_fields();
        let [high, wide] = grid.spacing_fields();
        let grid = grid.set(lat, origin[0]).set(lon, origin[1]).set(high, spacing[0]).set(wide, spacing[1]);
        let grid = (0..3).fold(grid, |grid, c| grid.set(grid.mean_field(c), mean[c]));
        grid.set_nodes(node)
    }

    /// Whether the message is 1023.
    pub fn ellipsoidal(&self) -> bool {
        self.sample.number == 1023
    }

    /// The origin's data fields.
    pub fn origin_fields(&self) -> [u16; 2] {
        if self.ellipsoidal() {
            [192, 193]
        } else {
            [202, 203]
        }
    }

    /// The spacings' data fields.
    pub fn spacing_fields(&self) -> [u16; 2] {
        if self.ellipsoidal() {
            [194, 195]
        } else {
            [204, 205]
        }
    }

    /// The mean's data field of a component.
    pub fn mean_field(&self, component: usize) -> u16 {
        let first = if self.ellipsoidal() { 196 } else { 206 };
        first + component as u16
    }

    /// The node's data field of a component.
    pub fn node_field(&self, component: usize) -> u16 {
        let first = if self.ellipsoidal() { 199 } else { 209 };
        first + component as u16
    }

    /// The same grid with another reading for one data field.
    pub fn set(&self, df: u16, reading: impl Into<Reading>) -> Grid {
        Grid { sample: self.sample.with(df, reading) }
    }

    /// The place in the row of a node, nodes being numbered from 1.
    fn node_place(&self, component: usize, node: usize) -> usize {
        self.sample.place(self.node_field(component)) + 3 * (node - 1)
    }

    /// The same grid with another reading at one node.
    pub fn set_node(&self, component: usize, node: usize, reading: impl Into<Reading>) -> Grid {
        Grid { sample: self.sample.with_at(self.node_place(component, node), reading) }
    }

    /// The same grid with all nodes given by component and node number.
    pub fn set_nodes<R: Into<Reading>>(&self, mut node: impl FnMut(usize, usize) -> R) -> Grid {
        let mut grid = self.clone();
        for component in 0..3 {
            for number in 1..=16 {
                grid = grid.set_node(component, number, node(component, number));
            }
        }
        grid
    }

    /// What a node says.
    pub fn node(&self, component: usize, node: usize) -> Reading {
        self.sample.readings[self.node_place(component, node)]
    }

    /// The same grid with all values of nodes negated.
    pub fn negated(&self) -> Grid {
        self.set_nodes(|component, node| self.node(component, node).map(|value| -value))
    }

    /// The bytes of the message.
    pub fn bytes(&self) -> Vec<u8> {
        self.sample.bytes()
    }

    /// Steps in one raw unit of origin and spacing.
    pub fn unit(&self) -> i64 {
        if self.ellipsoidal() {
            5_000
        } else {
            10_000
        }
    }

    /// The origin in steps, a field without a value counting as 0.
    pub fn origin(&self) -> [i64; 2] {
        self.origin_fields().map(|df| self.sample.readings[self.sample.place(df)].unwrap_or(0) * self.unit())
    }

    /// The spacings in steps.
    pub fn spacing(&self) -> [i64; 2] {
        self.spacing_fields().map(|df| self.sample.value(df) * self.unit())
    }

    /// The position some steps north and east of another, a longitude past 180 degrees being named from the other side.
    pub fn moved(&self, [north, east]: [i64; 2], [north_steps, east_steps]: [i64; 2]) -> [i64; 2] {
        let east = match east + east_steps {
            sum if self.ellipsoidal() && sum > HALF_TURN => sum - 2 * HALF_TURN,
            sum if self.ellipsoidal() && sum < -HALF_TURN => sum + 2 * HALF_TURN,
            sum => sum,
        };
        [north + north_steps, east]
    }

    /// The position of a node in steps, nodes being numbered from 1 in rows from the north.
    pub fn at_node(&self, node: usize) -> [i64; 2] {
        let halves_north = 3 - 2 * ((node as i64 - 1) / 4);
        let halves_east = 2 * ((node as i64 - 1) % 4) - 3;
        let [high, wide] = self.spacing();
        self.moved(self.origin(), [halves_north * high / 2, halves_east * wide / 2])
    }
}
