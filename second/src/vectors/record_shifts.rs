//! Cases of the shifts from a grid record that is made from a row.

use super::reads::{label, plain_places};
use super::shifts::{
    absent_means, absent_nodes, good_call, pairs, parts_text, random_grid, random_position, worked, Call,
};
use super::{parts, row_words, Case};
use crate::fields::by_df;
use crate::grid::shifts_of;
use crate::random::Random;
use crate::record::{made_of, GRID_KIND};
use crate::samples::{end_by_turns, not_taken};
use crate::vectors::antimeridian::random_grid_across;

/// All cases of the shifts from a record.
pub fn cases() -> Vec<Case> {
    let mut calls = worked();
    for number in [1023, 1024] {
        calls.extend(absent_nodes(number));
        calls.extend(absent_means(number));
        calls.extend(parts::calls(number));
        calls.extend(pairs(number));
        calls.extend(nones_for_numbers(number));
        calls.extend(values_outside(number));
        calls.extend(numbers_of_another_kind(number));
        calls.extend(range_first(number));
    }
    calls.extend(random_records());
    calls.into_iter().map(|(name, call)| case(&name, call)).collect()
}

/// A case of the shifts from the record made from the row of a call's grid.
fn case(name: &str, Call { grid, position: [north, east] }: Call) -> Case {
    let row = grid.sample.row();
    let record = made_of(GRID_KIND, &row);
    Case {
        name: format!("of-{name}"),
        call: format!("shiftof {north} {east} {}", row_words(&row)),
        answer: parts_text(&shifts_of(&record, north, east)),
    }
}

/// Each unsigned field of a grid made from a none, which counts as 0 but for DF203, whose none is kept.
fn nones_for_numbers(number: u16) -> Vec<(String, Call)> {
    let good = good_call(number);
    let sample = &good.grid.sample;
    let unsigned = plain_places(sample).into_iter().filter(|&place| !by_df(sample.dfs[place]).signed());
    unsigned.map(|place| (format!("{}-none", label(sample, place)), with_field(&good, place, None))).collect()
}

/// The call with another reading at one place of its grid's row.
fn with_field(call: &Call, place: usize, reading: impl Into<Option<i64>>) -> Call {
    let mut other = call.clone();
    other.grid.sample = call.grid.sample.with_at(place, reading);
    other
}

/// Each field at a value that no grid message holds: outside its range, its pattern, or an end of 64 bits.
fn values_outside(number: u16) -> Vec<(String, Call)> {
    let good = good_call(number);
    let sample = &good.grid.sample;
    let mut calls = Vec::new();
    for place in plain_places(sample) {
        for (word, value) in not_taken(by_df(sample.dfs[place])).into_iter().chain([end_by_turns(place)]) {
            calls.push((format!("{}-{word}", label(sample, place)), with_field(&good, place, value)));
        }
    }
    calls
}

/// Records under other message numbers.
fn numbers_of_another_kind(number: u16) -> Vec<(String, Call)> {
    let good = good_call(number);
    let others = [0, 1, 1_020, 1_021, 1_022, 1_023, 1_024, 1_025, 1_026, 1_027, 1_028, 5_119, 5_120, 66_559, i64::MAX];
    others.into_iter().map(|other| (format!("{number}-number-{other}"), with_field(&good, 0, other))).collect()
}

/// Records that no message holds, with a position that would be refused, or nothing else right.
fn range_first(number: u16) -> Vec<(String, Call)> {
    let mut good = good_call(number);
    good.grid = good.grid.set(147, 256);
    let position = Call { position: [i64::MIN, i64::MAX], ..good.clone() };
    let mut wrong = position.clone();
    wrong.grid = wrong.grid.set(190, 0).set(212, 1).set(wrong.grid.origin_fields()[0], None);
    let calls = [("alone", good), ("position", position), ("all", wrong)];
    calls.into_iter().map(|(word, call)| (format!("{number}-range-{word}"), call)).collect()
}

/// Random grids at random positions, some with nodes not available, some across 180 degrees.
fn random_records() -> Vec<(String, Call)> {
    let mut random = Random::new(18);
    let mut calls = Vec::new();
    for i in 0..60 {
        let grid = match i % 3 {
            0 => random_grid(&mut random, 1023),
            1 => random_grid(&mut random, 1024),
            _ => random_grid_across(&mut random),
        };
        for place in 1..=3 {
            let position = random_position(&mut random, &grid);
            calls.push((format!("grid-{i}-at-{place}"), Call { grid: grid.clone(), position }));
        }
    }
    calls
}
