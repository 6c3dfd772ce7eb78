//! The second program's own checks of making a height grid (document 02, A11).

use crate::grid::{shifts, Answer, HEIGHT};
use crate::gridsamples::{Grid, HALF_TURN};
use crate::heights::{smallest_mean, write_heights, GREATEST_MEAN, NODES};
use crate::heightsamples::{any_heights, row_of, spread, with_any_heights, FARTHEST, WIDEST};
use crate::message::{read, Row};
use crate::random::Random;
use crate::refusal::{number_of, Refusal};
use crate::selfcheck::Group;
use crate::vectors::antimeridian::random_grid_across;
use crate::vectors::shifts::random_grid;

/// All groups of checks of making a height grid.
pub fn groups() -> Vec<Group> {
    vec![means(), grid_k(), at_nodes(), order(), not_looked_at()]
}

/// Means worked by hand, and the ends of all ranges.
fn means() -> Group {
    let mut group = Group::new("smallest means of wanted heights");
    let level = |height: i64| [height; NODES];
    // A level grid of 46.920 m: 10 times the mean is at least 46,665, and 4,667 is the first such.
    group.equal("level", smallest_mean(&level(46_920)), Some(4_667));
    group.equal("at zero", smallest_mean(&level(0)), Some(-25));
    group.equal("least", smallest_mean(&level(-FARTHEST)), Some(-GREATEST_MEAN));
    group.equal("below the least", smallest_mean(&level(-FARTHEST - 1)), None);
    group.equal("above the least", smallest_mean(&level(-FARTHEST + 510)), Some(-GREATEST_MEAN));
    group.equal("next", smallest_mean(&level(-FARTHEST + 511)), Some(-GREATEST_MEAN + 1));
    group.equal("greatest", smallest_mean(&level(FARTHEST)), Some(GREATEST_MEAN));
    group.equal("above the greatest", smallest_mean(&level(FARTHEST + 1)), None);
    for extreme in [i64::MIN, i64::MAX] {
        group.equal("extreme", smallest_mean(&level(extreme)), None);
        let mut one = level(0);
        one[7] = extreme;
        group.equal("one extreme", smallest_mean(&one), None);
    }
    let mut random = Random::new(111);
    for least in -300..300 {
        for span in WIDEST - 20..=WIDEST + 1 {
            // A mean times 10 must stand from the greatest height less 255 to the least height and 255.
            let (from, to) = (least + span - 255, least + 255);
            let first = (from..=to).find(|number| number % 10 == 0).map(|number| number / 10);
            group.equal("span", smallest_mean(&spread(&mut random, least, span)), first);
        }
    }
    group
}

/// Document 01's grid K, whose heights are 46.92 m and i mm: with the smallest mean its nodes are other numbers.
fn grid_k() -> Group {
    let mut group = Group::new("grid K from its heights");
    let wanted: [i64; NODES] = std::array::from_fn(|i| 46_920 + i as i64 + 1);
    let bytes = write_heights(&row_of(&Grid::k()), &wanted, 73).expect("heights with a mean");
    let message = read(&bytes).expect("a sound message");
    // 46,936 less 255 is 46,681, so the mean is 4,669 and node 1 is 46,921 less 46,690.
    group.equal("mean", message.reading(198), Some(4_669));
    group.equal("nodes", message.readings(201), (231..=246).map(Some).collect());
    let middle = Grid::k().origin();
    group.equal("P1", shifts(&bytes, middle[0], middle[1])[HEIGHT].count, Ok(469_285));
    group.equal("no room", write_heights(&row_of(&Grid::k()), &wanted, 72), Err(Refusal::Room));
    group
}

/// The shift at every node of written grids, at its position and a whole turn away where that is within the limits.
fn at_nodes() -> Group {
    let mut group = Group::new("wanted heights at the nodes");
    let mut random = Random::new(112);
    for turn in 0..3_000 {
        let grid = if turn % 2 == 0 { random_grid(&mut random, 1023) } else { random_grid_across(&mut random) };
        let wanted = any_heights(&mut random);
        let Ok(bytes) = write_heights(&row_of(&grid), &wanted, 73) else { continue };
        for node in 1..=NODES {
            let [north, east] = grid.at_node(node);
            let asked = [east, east - 2 * HALF_TURN, east + 2 * HALF_TURN];
            for east in asked.into_iter().filter(|east| east.abs() <= HALF_TURN && north.abs() <= HALF_TURN / 2) {
                let height = wanted[node - 1];
                let part = shifts(&bytes, north, east)[HEIGHT];
                group.equal("count", part.count, Ok(10 * height));
                group.equal("metres", part.answer, Answer::Metres((10 * height) as f64 / 10_000.0));
            }
        }
    }
    group.check(group.made > 50_000, || "too few heights have a mean".to_string());
    group
}

/// The same row with another value or presence at one place.
fn changed(row: &Row, place: usize, value: i64, present: u8) -> Row {
    let mut other = row.clone();
    (other.values[place], other.present[place]) = (value, present);
    other
}

/// The order of the refusals, each with all later reasons given too.
fn order() -> Group {
    let mut group = Group::new("refusals of making a height grid");
    let sound = row_of(&Grid::k());
    let (level, steep) = ([0; NODES], spread(&mut Random::new(1), 0, 511));
    // DF191 0, DF213 1, DF192 none, DF194 0, heights without a mean, DF147 256 and no room; one is taken away after another.
    let bad = changed(&changed(&sound, 3, 0, 1), 60, 1, 1);
    let bad = changed(&changed(&changed(&bad, 4, 0, 0), 6, 0, 1), 1, 256, 1);
    let number = |row: &Row, wanted: &[i64]| number_of(&write_heights(row, wanted, 0));
    group.equal("off", number(&bad, &steep), 10);
    let bad = changed(&bad, 3, 1, 1);
    group.equal("method", number(&bad, &steep), 11);
    let bad = changed(&bad, 60, 0, 1);
    group.equal("origin", number(&bad, &steep), 12);
    group.equal("origin east", number(&changed(&changed(&bad, 4, 0, 1), 5, 0, 0), &steep), 12);
    let bad = changed(&bad, 4, 0, 1);
    group.equal("spacing", number(&bad, &steep), 13);
    group.equal("spacing east", number(&changed(&changed(&bad, 6, 1, 1), 7, 0, 1), &steep), 13);
    let bad = changed(&bad, 6, 1, 1);
    group.equal("no mean", number(&bad, &steep), 23);
    group.equal("range", number(&bad, &level), 5);
    group.equal("number", number(&changed(&sound, 0, 1024, 1), &level), 5);
    group.equal("no mean before the number", number(&changed(&sound, 0, 1024, 1), &steep), 23);
    group.equal("room", number(&sound, &level), 6);
    for count in [0, 15, 17] {
        group.equal("heights", number(&bad, &vec![0; count]), 5);
    }
    for count in [0, 63, 65] {
        let mut other = changed(&sound, 3, 0, 1);
        other.values.resize(count, 0);
        group.equal("values", number(&other, &level), 5);
        let mut other = changed(&sound, 3, 0, 1);
        other.present.resize(count, 1);
        group.equal("presence bytes", number(&other, &level), 5);
    }
    group
}

/// Height fields that hold anything: the message is the same.
fn not_looked_at() -> Group {
    let mut group = Group::new("height fields that are not looked at");
    let mut random = Random::new(113);
    for _ in 0..500 {
        let row = row_of(&random_grid(&mut random, 1023));
        let wanted = any_heights(&mut random);
        let expected = write_heights(&row, &wanted, 73);
        group.equal("written", write_heights(&with_any_heights(&mut random, row), &wanted, 73), expected);
    }
    group
}
