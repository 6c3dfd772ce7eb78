//! Cases of grids across 180 degrees, where longitudes change their sign (document 02, A2).

use super::shifts::{case, lines_and_corners, middles, nodes, random_grid, random_position, refusal_cases, word, Call};
use super::Vector;
use crate::gridsamples::{Grid, HALF_TURN};
use crate::random::Random;

/// 180 degrees in raw units of DF193.
const RAW_HALF_TURN: i64 = 1_296_000;

/// All cases of grids across 180 degrees, and of plane grids with coordinates as large.
pub fn cases() -> Vec<Vector> {
    let mut cases = Vec::new();
    for (name, grid) in grids() {
        let name = format!("antimeridian-{name}");
        cases.extend(nodes(&name, &grid));
        cases.extend(middles(&name, &grid));
        cases.extend(opposite(&name, &grid));
    }
    for (name, grid) in grids().into_iter().chain(touching()) {
        cases.extend(on_the_meridian(&format!("antimeridian-{name}"), &grid));
        cases.extend(at_the_edges(&format!("antimeridian-{name}"), &grid));
    }
    cases.extend(lines_and_corners("antimeridian-col", &grid_at(RAW_HALF_TURN - 360, 720)));
    cases.extend(absent_nodes());
    cases.extend(halves());
    let grid = grid_at(RAW_HALF_TURN, 720);
    let position = [grid.origin()[0], 1_000 - HALF_TURN];
    cases.extend(refusal_cases("antimeridian", &Call { grid, position }));
    cases.extend(random_grids());
    cases.extend(plane());
    cases
}

/// A grid of a longitude of origin and a spacing east, both in raw units.
fn grid_at(longitude: i64, wide: i64) -> Grid {
    Grid::of(1023, [513_000, longitude], [720, wide], [-3, 5, 4_692], |component, node| match (node + component) % 3 {
        0 => 255 - node as i64,
        1 => 3 * node as i64 - 255,
        _ => 17 * node as i64 - 140,
    })
}

/// Grids with origins at +180, -180, 179 and -179.5 degrees, the third of which ends before the meridian.
pub(super) fn grids() -> Vec<(&'static str, Grid)> {
    vec![
        ("e180", grid_at(RAW_HALF_TURN, 720)),
        ("w180", grid_at(-RAW_HALF_TURN, 720)),
        ("e179", grid_at(1_288_800, 4_095)),
        ("w179-5", grid_at(-1_292_400, 4_095)),
    ]
}

/// Grids with an edge or an inner column of nodes on the meridian, or an edge one raw unit before it.
pub(super) fn touching() -> Vec<(&'static str, Grid)> {
    vec![
        ("edge-e", grid_at(RAW_HALF_TURN - 1_080, 720)),
        ("edge-w", grid_at(-RAW_HALF_TURN + 1_080, 720)),
        ("column-e", grid_at(RAW_HALF_TURN - 360, 720)),
        ("column-w", grid_at(-RAW_HALF_TURN + 360, 720)),
        ("before-e", grid_at(RAW_HALF_TURN - 1_081, 720)),
        ("before-w", grid_at(-RAW_HALF_TURN + 1_081, 720)),
    ]
}

/// The meridian by both of its names, one step on either side, and one step past each limit.
fn on_the_meridian(name: &str, grid: &Grid) -> Vec<Vector> {
    let longitudes = [
        ("plus", HALF_TURN),
        ("minus", -HALF_TURN),
        ("plus-west", HALF_TURN - 1),
        ("minus-east", -HALF_TURN + 1),
        ("plus-past", HALF_TURN + 1),
        ("minus-past", -HALF_TURN - 1),
    ];
    let mut cases = Vec::new();
    for (word, east) in longitudes {
        for steps in [0, 1_234, 2_468] {
            let north = grid.origin()[0] + steps;
            cases.push(case(format!("{name}-{word}-n{steps}"), &grid.bytes(), [north, east]));
        }
    }
    cases
}

/// The western and the eastern edge and one step on either side of each.
fn at_the_edges(name: &str, grid: &Grid) -> Vec<Vector> {
    let edge = 3 * grid.spacing()[1] / 2;
    let mut cases = Vec::new();
    for (side, steps) in [("west", -edge), ("east", edge)] {
        for step in -1..=1 {
            let position = grid.moved(grid.origin(), [77, steps + step]);
            cases.push(case(format!("{name}-{side}-edge-e{}", word(step)), &grid.bytes(), position));
        }
    }
    cases
}

/// The longitude half a turn from the origin and that of Greenwich, with one step on either side.
fn opposite(name: &str, grid: &Grid) -> Vec<Vector> {
    let [north, east] = grid.origin();
    let mut cases = Vec::new();
    for step in -1..=1 {
        let across = grid.moved([north, east - east.signum() * HALF_TURN], [0, step]);
        cases.push(case(format!("{name}-opposite-e{}", word(step)), &grid.bytes(), across));
        cases.push(case(format!("{name}-greenwich-e{}", word(step)), &grid.bytes(), [north, step]));
        cases.push(case(
            format!("{name}-mirrored-e{}", word(step)),
            &grid.bytes(),
            grid.moved([north, -east], [0, step]),
        ));
    }
    cases
}

/// Each node of a column on the meridian not available, asked for by both names, beside it, and at its neighbours.
fn absent_nodes() -> Vec<Vector> {
    let grid = grid_at(RAW_HALF_TURN - 360, 720);
    let wide = grid.spacing()[1];
    let mut cases = Vec::new();
    for node in [3, 7, 11, 15] {
        let bytes = grid.set_node(1, node, None).bytes();
        let north = grid.at_node(node)[0];
        let around = [
            ("plus", HALF_TURN),
            ("minus", -HALF_TURN),
            ("plus-west", HALF_TURN - 1),
            ("minus-east", -HALF_TURN + 1),
            ("next-west", HALF_TURN - wide),
            ("next-east", -HALF_TURN + wide),
            ("after-next-west", HALF_TURN - wide + 1),
            ("before-next-east", -HALF_TURN + wide - 1),
        ];
        for (word, east) in around {
            cases.push(case(format!("antimeridian-absent-{node}-{word}"), &bytes, [north, east]));
        }
    }
    cases
}

/// Positions whose exact mean ends in a half, one of them on the meridian, and one step on either side of each.
fn halves() -> Vec<Vector> {
    let mut cases = Vec::new();
    for (sign_word, sign) in [("plus", 1), ("minus", -1)] {
        for (longitude, wide, parts) in [(RAW_HALF_TURN, 12, 6), (RAW_HALF_TURN - 1, 20, 20)] {
            let nodes = |_, node: usize| sign * (node as i64 % 4);
            let grid = Grid::of(1023, [100, longitude], [12, wide], [0, 0, 0], nodes);
            let mut ask = |word: String, position: [i64; 2]| {
                let name = format!("antimeridian-half-{sign_word}-of-{parts}-{word}");
                cases.push(case(name, &grid.bytes(), position));
            };
            for part in (1..parts).step_by(2) {
                for step in -1..=1 {
                    let steps = [0, grid.spacing()[1] * part / parts + step];
                    ask(format!("{part}-e{}", word(step)), grid.moved(grid.at_node(6), steps));
                }
            }
            ask("by-plus".into(), [grid.at_node(6)[0], HALF_TURN]);
            ask("by-minus".into(), [grid.at_node(6)[0], -HALF_TURN]);
        }
    }
    cases
}

/// Random grids across the meridian at random positions, and on the meridian by both names.
fn random_grids() -> Vec<Vector> {
    let mut random = Random::new(15);
    let mut cases = Vec::new();
    for i in 0..40 {
        let grid = random_grid_across(&mut random);
        for place in 1..=3 {
            let position = random_position(&mut random, &grid);
            cases.push(case(format!("antimeridian-grid-{i}-at-{place}"), &grid.bytes(), position));
        }
        let north = random_position(&mut random, &grid)[0];
        for (word, east) in [("plus", HALF_TURN), ("minus", -HALF_TURN)] {
            cases.push(case(format!("antimeridian-grid-{i}-{word}"), &grid.bytes(), [north, east]));
        }
    }
    cases
}

/// A random grid of 1023 that has the meridian of 180 degrees on or within its outer rectangle.
pub fn random_grid_across(random: &mut Random) -> Grid {
    let grid = random_grid(random, 1023);
    let wide = grid.sample.value(195);
    let beyond = random.within(-3 * wide / 2, 3 * wide / 2);
    let east_of_greenwich = beyond < 0 || (beyond == 0 && random.below(2) == 0);
    grid.set(193, if east_of_greenwich { RAW_HALF_TURN + beyond } else { -RAW_HALF_TURN + beyond })
}

/// Plane grids whose eastings are half a turn, a whole turn and more of 1023's steps, which are never turned.
fn plane() -> Vec<Vector> {
    let mut cases = Vec::new();
    for (origin, raw) in [("zero", 0), ("half", 648_000), ("turn", 1_296_000), ("far", 67_108_863)] {
        let grid = Grid::of(1024, [-5_000, raw], [700, 900], [1, 2, 3], |component, node| {
            node as i64 * if component == 1 { -9 } else { 11 }
        });
        let [north, east] = grid.origin();
        let edge = 3 * grid.spacing()[1] / 2;
        let eastings = [
            ("middle", east),
            ("west-edge", east - edge),
            ("past-west-edge", east - edge - 1),
            ("east-edge", east + edge),
            ("past-east-edge", east + edge + 1),
            ("half-turn-less", east - HALF_TURN),
            ("half-turn-more", east + HALF_TURN),
            ("turn-less", east - 2 * HALF_TURN),
            ("turn-more", east + 2 * HALF_TURN),
            ("at-half-turn", HALF_TURN),
            ("past-half-turn", HALF_TURN + 1),
            ("minus-half-turn", -HALF_TURN),
        ];
        for (word, easting) in eastings {
            let name = format!("antimeridian-plane-{origin}-{word}");
            cases.push(case(name, &grid.bytes(), [north + 5, easting]));
        }
    }
    cases
}
