//! Cases of rows of shifts: across cells, halves, changes of sign, absent nodes, edges and 180 degrees (document 02, A6).

use super::antimeridian::{self, random_grid_across};
use super::shifts::{named_grids, random_grid, random_position, steep, word};
use super::{row_limits, Call, Vector};
use crate::gridsamples::{Grid, HALF_TURN};
use crate::random::Random;
use crate::rows::{Ask, MOST_PLACES};

/// The most places of a short buffer.
pub(super) const MOST_ROOM: usize = 40;
/// The most places of a long buffer.
const MOST_LONG_ROOM: usize = 4_200;
/// A whole turn in steps of 1023.
pub(super) const TURN: i64 = 2 * HALF_TURN;

/// All cases of rows.
pub fn cases() -> Vec<Vector> {
    let mut cases = worked();
    for (name, grid) in named_grids().into_iter().chain([("k".to_string(), Grid::k())]) {
        cases.extend(across(&name, &grid));
    }
    for number in [1023, 1024] {
        cases.extend(around_lines(number));
        cases.extend(halves(number));
        cases.extend(changes_of_sign(number));
        cases.extend(absent_nodes(number));
        cases.extend(absent_means(number));
        cases.extend(edges(number));
        cases.extend(random_rows(number));
        cases.extend(long_rows(number));
        cases.extend(row_limits::cases(number));
    }
    cases.extend(across_180_degrees());
    cases.extend(long_rows_across());
    cases
}

/// A vector of a row in a short buffer.
pub(super) fn case(name: String, bytes: &[u8], ask: Ask, room: usize) -> Vector {
    assert!(room <= MOST_ROOM);
    Vector { name: format!("row-{name}"), call: Call::Row { bytes: bytes.to_vec(), ask, room } }
}

/// A vector of a row in a long buffer.
pub(super) fn long_case(name: String, bytes: &[u8], ask: Ask, room: usize) -> Vector {
    assert!(room <= MOST_LONG_ROOM);
    Vector { name: format!("longrow-{name}"), call: Call::Row { bytes: bytes.to_vec(), ask, room } }
}

/// Rows through document 01's worked positions of grid K, and from node 6 to node 7 by halves of a count.
fn worked() -> Vec<Vector> {
    let k = Grid::k();
    let six = k.at_node(6);
    let absent = k.set_node(2, 7, None);
    let mut cases = Vec::new();
    let mut ask = |name: &str, grid: &Grid, component: u8, start: [i64; 2], step: i64, count: usize| {
        cases.push(case(name.to_string(), &grid.bytes(), Ask { component, start, step, count }, MOST_ROOM));
    };
    ask("p1", &k, 2, k.origin(), 0, 1);
    ask("p2", &k, 2, k.at_node(1), 0, 1);
    ask("p3", &k, 2, [k.at_node(1)[0] + 1, k.at_node(1)[1]], 0, 1);
    ask("p4", &k, 2, k.at_node(16), 0, 1);
    ask("p5", &k, 2, six, 180_000, 2);
    ask("p6", &k, 2, six, 179_999, 2);
    ask("p7", &k.negated(), 2, six, 180_000, 2);
    ask("p8", &absent, 2, six, 1, 1);
    ask("p9", &absent, 2, six, 1, 2);
    ask("p10", &k, 0, k.origin(), 0, 1);
    ask("p11", &k.set(194, 0), 2, k.origin(), 0, 1);
    ask("k-node-6-to-7", &k, 2, six, 180_000, 21);
    ask("k-node-6-to-7-negated", &k.negated(), 2, six, 180_000, 21);
    ask("k-west-to-east", &k, 2, k.at_node(5), 300_000, 37);
    cases
}

/// Rows from the western to the eastern edge through all cells, on the lines of nodes and between them.
fn across(name: &str, grid: &Grid) -> Vec<Vector> {
    let [high, wide] = grid.spacing();
    let [north, east] = grid.at_node(13);
    let mut cases = Vec::new();
    for component in 0..3 {
        for thirds in [0, 1, 3, 5, 6, 8, 9] {
            let start = [north + thirds * high / 3, east];
            let ask = Ask { component, start, step: wide / 12, count: 37 };
            cases.push(case(format!("{name}-c{component}-thirds-{thirds}"), &grid.bytes(), ask, MOST_ROOM));
        }
    }
    cases
}

/// Rows of small steps over each column of nodes, the outer ones included.
fn around_lines(number: u16) -> Vec<Vector> {
    let grid = steep(number);
    let high = grid.spacing()[0];
    let mut cases = Vec::new();
    for (column, node) in [9, 10, 11, 12].into_iter().enumerate() {
        let [north, east] = grid.at_node(node);
        for (step, places) in [(1, 13), (2, 13), (7, 39), (499, 39)] {
            for (word, up) in [("on", 0), ("above", 1), ("between", high / 2)] {
                for first in [0, -(places / 2)] {
                    let start = [north + up, east + first * step];
                    let ask = Ask { component: column as u8 % 3, start, step, count: places as usize };
                    let name = format!("{number}-col-{column}-by-{step}-{word}-{}", self::word(first));
                    cases.push(case(name, &grid.bytes(), ask, MOST_ROOM));
                }
            }
        }
    }
    cases
}

/// Rows whose places fall on halves of a count or one step beside them, with nodes of both signs.
fn halves(number: u16) -> Vec<Vector> {
    let mut cases = Vec::new();
    for (sign_word, sign) in [("plus", 1), ("minus", -1)] {
        let grid = Grid::of(number, [100, 200], [12, 12], [0, 0, 0], |_, node| {
            let (row, column) = ((node as i64 - 1) / 4, (node as i64 - 1) % 4);
            sign * (row + column)
        });
        let [high, wide] = grid.spacing();
        let [north, east] = grid.at_node(5);
        for component in 0..3 {
            let parts = if number == 1023 && component < 2 { 6 } else { 20 };
            for beside in -1..=1 {
                for (height, down) in [("line", 0), ("middle", high / 2)] {
                    let start = [north - down, east + wide / parts + beside];
                    let count = (3 * parts as usize - 1).min(MOST_ROOM - 1);
                    let ask = Ask { component, start, step: wide / parts, count };
                    let name = format!("{number}-half-{sign_word}-c{component}-{height}-e{}", word(beside));
                    cases.push(case(name, &grid.bytes(), ask, MOST_ROOM));
                    let name = format!("{number}-half-{sign_word}-c{component}-{height}-1-e{}", word(beside));
                    cases.push(case(name, &grid.bytes(), Ask { step: 1, count: 7, ..ask }, MOST_ROOM));
                }
            }
        }
    }
    cases
}

/// Rows between negative and positive nodes, whose exact mean passes zero, with means of both signs.
fn changes_of_sign(number: u16) -> Vec<Vector> {
    let mut cases = Vec::new();
    for (size, mean) in [(1, 0), (1, 1), (2, -1), (255, 0), (255, 3)] {
        let grid =
            Grid::of(number, [0, 1_000], [12, 12], [mean; 3], |_, node| if node % 2 == 0 { size } else { -size });
        let [high, wide] = grid.spacing();
        let [north, east] = grid.at_node(9);
        for component in 0..3 {
            for (beside, down) in [(-1, 0), (0, 0), (1, 0), (0, high / 4), (1, high / 2)] {
                let start = [north - down, east + wide / 20 + beside];
                let ask = Ask { component, start, step: wide / 20, count: 39 };
                let name = format!("{number}-sign-{size}-mean-{}-c{component}-{}-s{down}", word(mean), word(beside));
                cases.push(case(name, &grid.bytes(), ask, MOST_ROOM));
            }
        }
    }
    cases
}

/// Each node of one component not available, with rows that give it weight and rows that do not.
fn absent_nodes(number: u16) -> Vec<Vector> {
    let grid = Grid::of(number, [100, 200], [6, 8], [1, 2, 3], |component, node| 10 * component as i64 - node as i64);
    let [high, wide] = grid.spacing();
    let mut cases = Vec::new();
    for node in 1..=16 {
        let component = (node % 3) as u8;
        let bytes = grid.set_node(component as usize, node, None).bytes();
        let [north, east] = grid.at_node(node);
        let [south, west] = grid.at_node(13);
        let mut ask = |word: &str, [from_north, from_east]: [i64; 2], step: i64, count: usize| {
            let ask = Ask { component, start: [from_north, from_east], step, count };
            cases.push(case(format!("{number}-absent-{node}-{word}"), &bytes, ask, MOST_ROOM));
        };
        ask("along", [north, west], wide / 4, 13);
        ask("above", [north + 1, west], wide / 4, 13);
        ask("below", [north - 1, west], wide / 4, 13);
        ask("row-north", [north + high, west], wide / 4, 13);
        ask("row-south", [north - high, west], wide / 4, 13);
        ask("ends-at-next-west", [north, east - wide - 5 * wide / 8], wide / 8, 6);
        ask("past-next-west", [north, east - wide - 5 * wide / 8], wide / 8, 7);
        ask("from-next-east", [north, east + wide], wide / 8, 8);
        ask("from-before-next-east", [north, east + wide - 1], wide / 8, 8);
        ask("by-nodes", [north, west], wide, 4);
        ask("by-two-nodes", [north, west], 2 * wide, 2);
        ask("by-two-from-second", [north, west + wide], 2 * wide, 2);
        ask("outside-first", [north, west - 2], 1, 40);
        ask("southern-edge", [south, west], wide / 5, 16);
        ask("leaves-east", [north, east + wide / 2], wide / 3, 40);
    }
    cases
}

/// Each mean not available, asked for in every component.
fn absent_means(number: u16) -> Vec<Vector> {
    let grid = steep(number);
    let mut cases = Vec::new();
    for mean in 0..3 {
        let bytes = grid.set(grid.mean_field(mean), None).bytes();
        for component in 0..3 {
            let ask = Ask { component, start: grid.origin(), step: 100, count: 9 };
            cases.push(case(format!("{number}-absent-mean-{mean}-c{component}"), &bytes, ask, MOST_ROOM));
        }
    }
    cases
}

/// Rows that begin or end on the outer rectangle or one step beside it, and rows of one place over and over at its corners.
fn edges(number: u16) -> Vec<Vector> {
    let grid = steep(number);
    let wide = grid.spacing()[1];
    let mut cases = Vec::new();
    let mut ask = |name: String, component: u8, start: [i64; 2], step: i64, count: usize| {
        cases.push(case(format!("{number}-{name}"), &grid.bytes(), Ask { component, start, step, count }, MOST_ROOM));
    };
    for (edge, node) in [("north", 1), ("south", 13), ("inner", 5)] {
        let [north, west] = grid.at_node(node);
        for (y, x) in (-1..=1).flat_map(|y| (-1..=1).map(move |x| (y, x))) {
            let beside = format!("{edge}-n{}-e{}", word(y), word(x));
            let start = [north + y, west + x];
            ask(format!("edge-{beside}-to-east"), 0, start, wide, 4);
            ask(format!("edge-{beside}-past-east"), 1, start, wide, 5);
            ask(format!("edge-{beside}-in-one"), 2, start, 3 * wide, 2);
            ask(format!("edge-{beside}-too-far"), 2, start, 3 * wide + 1, 2);
        }
    }
    for node in [1, 4, 13, 16] {
        for (y, x) in [(0, 0), (1, 0), (0, 1), (-1, 0), (0, -1)] {
            let [north, east] = grid.at_node(node);
            for count in [1, 2, 40] {
                let name = format!("corner-{node}-n{}-e{}-{count}", word(y), word(x));
                ask(name, (node % 3) as u8, [north + y, east + x], 0, count);
            }
        }
    }
    cases
}

/// A step of a random size: none, a few steps, a part of a cell, a cell, or more.
fn random_step(random: &mut Random, wide: i64) -> i64 {
    match random.below(8) {
        0 => 0,
        1 => random.within(1, 9),
        2 => wide / random.within(1, 12),
        3 => wide * random.within(1, 3) + random.within(-1, 1),
        4 => random.within(0, 3 * wide),
        _ => random.within(0, wide / 12),
    }
}

/// Random rows on random grids, some with nodes not available.
fn random_rows(number: u16) -> Vec<Vector> {
    let mut random = Random::new(31 + number as u64);
    let mut cases = Vec::new();
    for i in 0..240 {
        let grid = random_grid(&mut random, number);
        let [high, wide] = grid.spacing();
        let inside = [-3 * high / 2 + random.within(0, 3 * high), -3 * wide / 2 + random.within(0, wide)];
        let start = if i % 6 == 0 { random_position(&mut random, &grid) } else { grid.moved(grid.origin(), inside) };
        let step = random_step(&mut random, wide);
        let ask = Ask { component: (i % 3) as u8, start, step, count: random.within(1, 40) as usize };
        let room = if i % 5 == 0 { random.within(0, 40) as usize } else { MOST_ROOM };
        cases.push(case(format!("{number}-grid-{i}"), &grid.bytes(), ask, room));
    }
    cases
}

/// Rows of 4,096 places and near it on random grids: over all cells, over one column of nodes, at one place, and past the edge.
fn long_rows(number: u16) -> Vec<Vector> {
    let mut random = Random::new(33 + number as u64);
    let mut cases = Vec::new();
    for i in 0..12 {
        let grid = random_grid(&mut random, number).set_nodes(|_, _| random.within(-255, 255));
        let [high, wide] = grid.spacing();
        let [south, west] = grid.at_node(13);
        let start = [south + random.within(0, 3 * high), west];
        let all = Ask { component: (i % 3) as u8, start, step: 3 * wide / 4_095, count: MOST_PLACES };
        let mut ask = |word: &str, ask: Ask, room: usize| {
            cases.push(long_case(format!("{number}-{i}-{word}"), &grid.bytes(), ask, room));
        };
        ask("all-cells", all, MOST_LONG_ROOM);
        ask("all-cells-exact-room", all, MOST_PLACES);
        ask("all-cells-short-room", all, MOST_PLACES - 1);
        ask("one-place-less", Ask { count: MOST_PLACES - 1, ..all }, MOST_PLACES);
        ask("one-place-more", Ask { count: MOST_PLACES + 1, ..all }, MOST_LONG_ROOM);
        ask("past-the-edge", Ask { step: all.step + 1, ..all }, MOST_LONG_ROOM);
        ask("column", Ask { start: [start[0], west + wide - 2_000], step: 1, ..all }, MOST_PLACES);
        ask("two-columns", Ask { start: [start[0], west + wide / 3], step: wide / 2_500, ..all }, MOST_PLACES);
        ask("one-place", Ask { step: 0, ..all }, MOST_PLACES);
        ask("few-places", Ask { count: 1 + i, ..all }, MOST_LONG_ROOM);
    }
    cases.extend(long_rows_to_an_absent_node(number));
    cases
}

/// Rows whose last place is at an eastern edge or the last before an absent node's cell, and those of one place more.
fn long_rows_to_an_absent_node(number: u16) -> Vec<Vector> {
    let grid = Grid::of(number, [-40, 3_000], [300, 273], [4, -5, 6], |component, node| {
        (node as i64 * 31 + component as i64 * 77) % 256 - 128
    });
    let [high, wide] = grid.spacing();
    let mut cases = Vec::new();
    for (component, node) in [(0, 8), (1, 4), (2, 12)] {
        let absent = grid.set_node(component as usize, node, None);
        let [north, east] = absent.at_node(node);
        // The last place stands on the column west of the absent node, which then has no weight.
        let step = 2 * wide / 4_095;
        let start = [north - high / 7, east - wide - 4_095 * step];
        for (word, bytes) in [("absent", absent.bytes()), ("present", grid.bytes())] {
            for (beside_word, beside) in [("before", -1), ("at", 0), ("past", 1)] {
                let ask = Ask { component, start: [start[0], start[1] + beside], step, count: MOST_PLACES };
                cases.push(long_case(format!("{number}-{word}-{node}-{beside_word}"), &bytes, ask, MOST_PLACES));
            }
        }
        for (word, beside) in [("before", -1), ("at", 0), ("past", 1)] {
            let step = 3 * wide / 4_095;
            let start = [north - high / 7, east - 4_095 * step + beside];
            let ask = Ask { component, start, step, count: MOST_PLACES };
            cases.push(long_case(format!("{number}-edge-{node}-{word}"), &grid.bytes(), ask, MOST_PLACES));
        }
    }
    cases
}

/// Rows of grids across 180 degrees, and of plane grids with coordinates as large.
fn across_180_degrees() -> Vec<Vector> {
    let mut cases = Vec::new();
    for (name, grid) in antimeridian::grids().into_iter().chain(antimeridian::touching()) {
        cases.extend(at_the_meridian(name, &grid));
        cases.extend(by_whole_turns(name, &grid));
    }
    for (name, raw) in [("zero", 0), ("half", 648_000), ("turn", 1_296_000)] {
        let grid = Grid::of(1024, [-5_000, raw], [700, 900], [1, 2, 3], |component, node| {
            node as i64 * if component == 1 { -9 } else { 11 }
        });
        cases.extend(by_whole_turns(&format!("plane-{name}"), &grid));
    }
    cases
}

/// Rows that end at +180 degrees, before it or past it, and rows that begin at -180 degrees or beside it.
fn at_the_meridian(name: &str, grid: &Grid) -> Vec<Vector> {
    let [north, origin] = grid.origin();
    let wide = grid.spacing()[1];
    let mut cases = Vec::new();
    let mut ask = |word: String, component: u8, east: i64, step: i64, count: usize| {
        let ask = Ask { component, start: [north + 1_234, east], step, count };
        cases.push(case(format!("180-{name}-{word}"), &grid.bytes(), ask, MOST_ROOM));
    };
    for beside in -1..=1 {
        let by = word(beside);
        ask(format!("to-plus-e{by}"), 0, HALF_TURN - 9 * (wide / 30) + beside, wide / 30, 10);
        ask(format!("to-plus-by-1-e{by}"), 1, HALF_TURN - 39 + beside, 1, 40);
        ask(format!("from-minus-e{by}"), 2, -HALF_TURN + beside, wide / 30, 10);
        ask(format!("from-minus-by-1-e{by}"), 0, -HALF_TURN + beside, 1, 40);
    }
    let west_edge = grid.moved([north, origin], [0, -3 * wide / 2])[1];
    let east_edge = grid.moved([north, origin], [0, 3 * wide / 2])[1];
    ask("from-west-edge".to_string(), 1, west_edge, wide / 13, 40);
    ask("to-east-edge".to_string(), 2, east_edge - 9 * (wide / 20), wide / 20, 10);
    ask("past-east-edge".to_string(), 0, east_edge - 9 * (wide / 20) + 1, wide / 20, 10);
    cases
}

/// Rows whose step is a whole turn, nearly one, or half of one.
fn by_whole_turns(name: &str, grid: &Grid) -> Vec<Vector> {
    let [north, east] = grid.origin();
    let wide = grid.spacing()[1];
    let mut cases = Vec::new();
    let mut ask = |word: &str, east: i64, step: i64, count: usize| {
        for component in 0..3 {
            let ask = Ask { component, start: [north + 5, east], step, count };
            cases.push(case(format!("180-{name}-{word}-c{component}"), &grid.bytes(), ask, MOST_ROOM));
        }
    };
    ask("turn", -HALF_TURN, TURN, 2);
    ask("turn-once", -HALF_TURN, TURN, 1);
    ask("turn-thrice", -HALF_TURN, TURN, 3);
    ask("turn-less-one", -HALF_TURN, TURN - 1, 2);
    ask("turn-and-one", -HALF_TURN, TURN + 1, 2);
    ask("turn-from-one", -HALF_TURN + 1, TURN, 2);
    ask("back-a-turn", -HALF_TURN + wide / 5, TURN - wide / 5 - wide / 7, 2);
    ask("back-a-turn-thrice", -HALF_TURN + wide / 5, TURN - wide / 5 - wide / 7, 3);
    ask("half-turn", -HALF_TURN, HALF_TURN, 3);
    ask("origin-by-a-turn", east, TURN, 2);
    ask("origin-still", east, 0, 3);
    cases
}

/// Rows of 4,096 places on grids across 180 degrees, on either side of it.
fn long_rows_across() -> Vec<Vector> {
    let mut random = Random::new(35);
    let mut cases = Vec::new();
    for i in 0..12 {
        let grid = random_grid_across(&mut random).set_nodes(|_, _| random.within(-255, 255));
        let [high, wide] = grid.spacing();
        let north = grid.origin()[0] + random.within(-3 * high / 2, 3 * high / 2);
        let [west, east] = [-1, 1].map(|side| grid.moved(grid.origin(), [0, side * 3 * wide / 2])[1]);
        let component = (i % 3) as u8;
        let mut ask = |word: &str, east: i64, step: i64| {
            let ask = Ask { component, start: [north, east], step, count: MOST_PLACES };
            cases.push(long_case(format!("180-{i}-{word}"), &grid.bytes(), ask, MOST_PLACES));
        };
        ask("to-plus", west, ((HALF_TURN - west) / 4_095).max(0));
        ask("past-plus", west, ((HALF_TURN - west) / 4_095).max(0) + 1);
        ask("from-minus", -HALF_TURN, ((east + HALF_TURN) / 4_095).max(0));
        ask("past-the-edge", -HALF_TURN, ((east + HALF_TURN) / 4_095).max(0) + 1);
    }
    cases
}
