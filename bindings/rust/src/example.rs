//! A grid for trying the calls: the examples of this documentation use it.

use crate::{Message, Position, NODES};

/// The middle of [`grid_k`]: 49 degrees north and 11 degrees east.
pub const MIDDLE: Position = Position::new(1_764_000_000, 396_000_000);
/// Node 1 of [`grid_k`], its north-western corner.
pub const NODE_1: Position = Position::new(1_769_400_000, 390_600_000);
/// Node 6 of [`grid_k`].
pub const NODE_6: Position = Position::new(1_765_800_000, 394_200_000);
/// Node 16 of [`grid_k`], its south-eastern corner.
pub const NODE_16: Position = Position::new(1_758_600_000, 401_400_000);

/// Grid K as a message: a 1023 of heights alone around 49 degrees north and 11 degrees east.
///
/// Its system identification number is 7, its nodes are 360 arc seconds apart, its mean height shift is 46.92 m, and node i
/// has i mm.
///
/// ```
/// use tarnoklej::{example, read, Header};
///
/// assert_eq!(read(&example::grid_k()), Ok(Header { number: 1023, length: 73, sin: 7 }));
/// ```
pub fn grid_k() -> Vec<u8> {
    grid_k_fields().write().expect("grid K is a message")
}

/// The fields of grid K, for making grids that differ from it.
pub fn grid_k_fields() -> Message {
    let mut grid = Message::new(1023).expect("1023 is a message number");
    let fields = [(147, 7), (191, 1), (192, 352_800), (193, 79_200), (194, 720), (195, 720), (198, 4_692)];
    for (df, value) in fields {
        grid.set(df, value).expect("a field of a 1023");
    }
    for node in 1..=NODES as u8 {
        grid.set_node(201, node, i64::from(node)).expect("a node of a 1023");
    }
    grid
}
