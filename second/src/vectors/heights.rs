//! Cases of making a height grid from sixteen wanted heights.

use super::{Call, Vector};
use crate::fields::by_df;
use crate::gridsamples::Grid;
use crate::heights::{GREATEST_MEAN, NODES};
use crate::heightsamples::{any_heights, height_places, row_of, spread, with_any_heights, FARTHEST, WIDEST};
use crate::message::Row;
use crate::random::Random;
use crate::samples::not_taken;
use crate::vectors::antimeridian::random_grid_across;
use crate::vectors::shifts::random_grid;

/// The bytes of a 1023.
const LENGTH: usize = 73;
/// The data fields that are tested before the others: DF191, DF213, the origin and the spacings.
const TESTED_FIRST: [u16; 6] = [191, 213, 192, 193, 194, 195];

/// All cases of making a height grid.
pub fn cases() -> Vec<Vector> {
    let lists = [levels(), spans(), one_apart(), rooms(), refusal_order(), counts(), heights_ignored()];
    let more = [other_fields(), tested_first(), no_places(), random_heights()];
    lists.into_iter().chain(more).flatten().collect()
}

/// A vector of a row, wanted heights and a room.
fn case(name: String, row: &Row, wanted: &[i64], room: usize) -> Vector {
    let call = Call::Heights { row: row.clone(), wanted: wanted.to_vec(), room };
    Vector { name: format!("heights-{name}"), call }
}

/// The row of grid K.
fn k() -> Row {
    row_of(&Grid::k())
}

/// The row with another value and presence byte at one place.
fn changed(row: &Row, place: usize, value: i64, present: u8) -> Row {
    let mut other = row.clone();
    (other.values[place], other.present[place]) = (value, present);
    other
}

/// The wanted heights of grid K in millimetres.
fn heights_of_k() -> [i64; NODES] {
    std::array::from_fn(|i| 46_920 + i as i64 + 1)
}

/// Grids of one height, near 0, near every step of a mean and at the ends.
fn levels() -> Vec<Vector> {
    let word = |height: i64| if height < 0 { format!("minus-{}", height.unsigned_abs()) } else { height.to_string() };
    let near_zero = (-3..=3).chain([-266, -265, -256, -255, -6, -5, 5, 6, 255, 256, 265, 266]);
    let ends = [FARTHEST - 511, FARTHEST - 510, FARTHEST - 1, FARTHEST, FARTHEST + 1, FARTHEST + 10, i64::MAX];
    let mut heights: Vec<i64> = near_zero.collect();
    heights.extend(ends.into_iter().flat_map(|height| [height, -height]));
    heights.push(i64::MIN);
    let mut cases: Vec<Vector> = heights
        .into_iter()
        .map(|height| case(format!("level-{}", word(height)), &k(), &[height; NODES], LENGTH))
        .collect();
    cases.push(case("of-k".into(), &k(), &heights_of_k(), LENGTH));
    cases
}

/// Greatest differences of heights about the greatest that a message can say, at all ends of a step of the mean.
fn spans() -> Vec<Vector> {
    let mut random = Random::new(114);
    let mut cases = Vec::new();
    for span in [WIDEST - 10, WIDEST - 5, WIDEST - 1, WIDEST, WIDEST + 1] {
        for least in [-5, 0, 5] {
            let wanted = spread(&mut random, 1_000 * span + least, span);
            cases.push(case(format!("span-{span}-{}", least + 5), &k(), &wanted, LENGTH));
        }
    }
    let (lowest, highest) = (-10 * GREATEST_MEAN, 10 * GREATEST_MEAN);
    for (name, middle) in [("lowest", lowest), ("highest", highest)] {
        for shift in -2..=2 {
            let wanted = spread(&mut random, middle - 255 + shift, WIDEST);
            cases.push(case(format!("span-{name}-{}", shift + 2), &k(), &wanted, LENGTH));
        }
    }
    cases
}

/// One node apart from the others by as much as a message can say, by more, and by very much.
fn one_apart() -> Vec<Vector> {
    let mut cases = Vec::new();
    for node in 0..NODES {
        let words = if node % 2 == 0 { [("up", 510), ("under", -511)] } else { [("over", 511), ("down", -510)] };
        for (word, height) in words {
            let mut wanted = [5; NODES];
            wanted[node] += height;
            cases.push(case(format!("node-{}-{word}", node + 1), &k(), &wanted, LENGTH));
        }
    }
    cases
}

/// One grid at every kind of room.
fn rooms() -> Vec<Vector> {
    let rooms = [0, 1, LENGTH - 1, LENGTH, LENGTH + 1, LENGTH + 17, 160];
    rooms.into_iter().map(|room| case(format!("room-{room}"), &k(), &heights_of_k(), room)).collect()
}

/// Every pair of reasons to be refused.
fn refusal_order() -> Vec<Vector> {
    let steep = spread(&mut Random::new(115), 0, WIDEST + 1);
    let reasons: [(&str, usize, i64, u8); 8] = [
        ("off", 3, 0, 1),
        ("method", 60, 2, 1),
        ("latitude", 4, 0, 0),
        ("longitude", 5, 0, 0),
        ("high", 6, 0, 1),
        ("wide", 7, 0, 1),
        ("range", 1, 256, 1),
        ("number", 0, 1024, 1),
    ];
    let mut cases = Vec::new();
    for (i, &(one, place, value, present)) in reasons.iter().enumerate() {
        let row = changed(&k(), place, value, present);
        cases.push(case(format!("only-{one}"), &row, &heights_of_k(), LENGTH));
        cases.push(case(format!("steep-{one}"), &row, &steep, LENGTH));
        cases.push(case(format!("short-{one}"), &row, &heights_of_k(), LENGTH - 1));
        for &(other, place, value, present) in &reasons[i + 1..] {
            let row = changed(&row, place, value, present);
            cases.push(case(format!("both-{one}-{other}"), &row, &heights_of_k(), LENGTH));
        }
    }
    cases.push(case("steep-short".into(), &k(), &steep, LENGTH - 1));
    cases
}

/// Other counts of heights, values and presence bytes than 16, 64 and 64, with DF191 1 and 0.
fn counts() -> Vec<Vector> {
    let mut cases = Vec::new();
    for (word, row) in [("on", k()), ("off", changed(&k(), 3, 0, 1))] {
        for count in [0, 1, 15, 17] {
            cases.push(case(format!("count-{count}-{word}"), &row, &vec![0; count], LENGTH));
        }
        for count in [0, 1, 63, 65] {
            let mut other = row.clone();
            other.values.resize(count, 0);
            cases.push(case(format!("values-{count}-{word}"), &other, &[0; NODES], LENGTH));
            let mut other = row.clone();
            other.present.resize(count, 1);
            cases.push(case(format!("present-{count}-{word}"), &other, &[0; NODES], LENGTH));
            let mut other = row.clone();
            other.values.resize(count, 0);
            other.present.resize(count, 1);
            cases.push(case(format!("fields-{count}-{word}"), &other, &[0; NODES], LENGTH));
        }
    }
    cases
}

/// Height fields of the row that hold anything.
fn heights_ignored() -> Vec<Vector> {
    let mut random = Random::new(116);
    let mut cases = Vec::new();
    for (i, place) in height_places().into_iter().enumerate() {
        let words = [("none", 0, 0), ("pattern", -256, 1), ("far", 40_000, 1), ("no-place", 7, 9)];
        for (word, value, present) in if i < 2 { &words[..] } else { &words[i % 4..=i % 4] }.iter().copied() {
            cases.push(case(
                format!("ignored-{i}-{word}"),
                &changed(&k(), place, value, present),
                &heights_of_k(),
                LENGTH,
            ));
        }
    }
    for i in 0..4 {
        let row = with_any_heights(&mut random, k());
        cases.push(case(format!("ignored-all-{i}"), &row, &[-1; NODES], LENGTH));
    }
    cases
}

/// The places and data fields of a row of a 1023 besides those of heights.
fn plain_fields() -> Vec<(usize, u16)> {
    let heights = height_places();
    let fields = Grid::k().sample.dfs.into_iter().enumerate();
    fields.filter(|(place, _)| !heights.contains(place)).collect()
}

/// Every other field at values that it does not take and without a value, the nodes by turns.
fn other_fields() -> Vec<Vector> {
    let mut cases = Vec::new();
    for (place, df) in plain_fields().into_iter().filter(|(_, df)| !TESTED_FIRST.contains(df)) {
        for (i, (word, value)) in not_taken(by_df(df)).into_iter().enumerate() {
            if !(11..=58).contains(&place) || (place + i).is_multiple_of(11) {
                let row = changed(&k(), place, value, 1);
                cases.push(case(format!("field-{place}-{word}"), &row, &heights_of_k(), LENGTH));
            }
        }
        if !(13..57).contains(&place) {
            cases.push(case(format!("field-{place}-none"), &changed(&k(), place, 0, 0), &heights_of_k(), LENGTH));
        }
    }
    cases
}

/// The fields that are tested first at all that they take and at much that they do not.
fn tested_first() -> Vec<Vector> {
    let mut cases = Vec::new();
    for (place, df) in plain_fields().into_iter().filter(|(_, df)| TESTED_FIRST.contains(df)) {
        let field = by_df(df);
        let taken = [field.least(), field.greatest(), 0, 1].into_iter();
        let mut values: Vec<i64> = taken.chain(not_taken(field).into_iter().map(|(_, value)| value)).collect();
        values.sort();
        values.dedup();
        for (i, value) in values.into_iter().enumerate() {
            cases.push(case(format!("first-{df}-{i}"), &changed(&k(), place, value, 1), &heights_of_k(), LENGTH));
        }
    }
    cases
}

/// Numbers that are no place of a row: a presence byte other than 0 and 1, and a none with a value.
fn no_places() -> Vec<Vector> {
    let steep = spread(&mut Random::new(117), 0, WIDEST + 1);
    let mut cases = Vec::new();
    for place in [1, 3, 4, 5, 6, 7, 11, 60] {
        let value = k().values[place];
        for (word, value, present) in [("two", value, 2), ("none-one", 1, 0), ("zero-all", 0, 255)] {
            let row = changed(&k(), place, value, present);
            cases.push(case(format!("no-place-{place}-{word}"), &row, &heights_of_k(), LENGTH));
        }
        cases.push(case(format!("no-place-{place}-steep"), &changed(&k(), place, value, 2), &steep, LENGTH));
    }
    cases
}

/// Random grids, by turns across 180 degrees, with random heights.
fn random_heights() -> Vec<Vector> {
    let mut random = Random::new(118);
    let any = |i: usize| {
        let grid = if i.is_multiple_of(2) { random_grid(&mut random, 1023) } else { random_grid_across(&mut random) };
        case(format!("random-{i}"), &row_of(&grid), &any_heights(&mut random), LENGTH)
    };
    (0..24).map(any).collect()
}
