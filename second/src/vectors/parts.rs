//! Calls whose three parts are refused differently at one position (document 02, A3).

use super::shifts::Call;
use crate::gridsamples::Grid;

/// A change of a grid, by a word for a name.
type Change = (&'static str, fn(Grid) -> Grid);

/// What is wrong with both horizontal components, with one of them, or with neither.
const HORIZONTAL: [Change; 9] = [
    ("on", |grid| grid),
    ("off", |grid| grid.set(190, 0)),
    ("method", |grid| grid.set(212, 2)),
    ("both", |grid| grid.set(190, 0).set(212, 1)),
    ("north-mean", |grid| grid.set(grid.mean_field(0), None)),
    ("east-mean", |grid| grid.set(grid.mean_field(1), None)),
    ("north-node", |grid| grid.set_node(0, 7, None)),
    ("east-node", |grid| grid.set_node(1, 7, None)),
    ("nodes", |grid| grid.set_node(0, 6, None).set_node(1, 7, None)),
];

/// What is wrong with the height, or nothing.
const VERTICAL: [Change; 6] = [
    ("on", |grid| grid),
    ("off", |grid| grid.set(191, 0)),
    ("method", |grid| grid.set(213, 3)),
    ("both", |grid| grid.set(191, 0).set(213, 1)),
    ("mean", |grid| grid.set(grid.mean_field(2), None)),
    ("node", |grid| grid.set_node(2, 7, None)),
];

/// What is wrong with all parts, or nothing.
const ALL: [Change; 3] = [
    ("sound", |grid| grid),
    ("origin", |grid| grid.set(grid.origin_fields()[0], None)),
    ("spacing", |grid| grid.set(grid.spacing_fields()[1], 0)),
];

/// A grid whose parts are answered by counts of both signs.
fn grid(number: u16) -> Grid {
    Grid::of(number, [300, 900], [6, 8], [-5, 7, -469], |component, node| {
        (20 * component as i64 - 19) * (node as i64 - 5)
    })
}

/// Positions in the cell between nodes 6, 7, 10 and 11: within it, where node 7 has no weight, outside, and past the limits.
fn positions(grid: &Grid) -> [(&'static str, [i64; 2]); 4] {
    let [north, east] = grid.at_node(6);
    let [high, wide] = grid.spacing();
    [
        ("inside", [north - high / 3, east + wide / 5]),
        ("at-10", grid.at_node(10)),
        ("out", [north + 2 * high, east]),
        ("past", [north, -1_000_000_000_001]),
    ]
}

/// Every combination of what can be wrong with the horizontal components, the height and all parts, at every position.
pub(super) fn calls(number: u16) -> Vec<(String, Call)> {
    let sound = grid(number);
    let mut calls = Vec::new();
    for (all, change_all) in ALL {
        for (horizontal, change_horizontal) in HORIZONTAL {
            for (vertical, change_vertical) in VERTICAL {
                let grid = change_all(change_vertical(change_horizontal(sound.clone())));
                for (place, position) in positions(&sound) {
                    let name = format!("{number}-{all}-{horizontal}-{vertical}-{place}");
                    calls.push((name, Call { grid: grid.clone(), position }));
                }
            }
        }
    }
    calls
}
