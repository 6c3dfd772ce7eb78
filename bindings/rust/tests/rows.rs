//! Rows of shifts: against the calls at each place, and each refusal with the row that stays as it was.

mod common;

use common::{grid_k_with, moved};
use example::MIDDLE;
use tarnoklej::*;

/// The spacing of the grid in steps, north and east.
const SPACING: i64 = 3_600_000;
/// The western edge of the grid in steps.
const WEST: i64 = MIDDLE.east - 3 * SPACING / 2;
/// 180 degrees in steps.
const HALF_TURN: i64 = 6_480_000_000;
/// What a row holds before a call.
const BEFORE: i64 = -7_777_777;

/// Grid K with both shifts on, nodes of both signs, and another value at a place of its row.
fn message(place: usize, value: Option<i64>) -> Vec<u8> {
    let mut others = vec![(2, Some(1)), (8, Some(12)), (9, Some(-7))];
    for node in 1..=16 {
        let first = 8 + 3 * node;
        let number = node as i64;
        others.extend([(first, Some((number * 37) % 64 - 30)), (first + 1, Some(50 - (number * 29) % 100))]);
    }
    others.push((place, value));
    grid_k_with(&others)
}

/// The count of a component at a position.
fn count(message: &[u8], component: Component, position: Position) -> Result<i64, Refusal> {
    shifts_at(message, position).of(component).map(|shift| shift.count)
}

/// What the call answers, and the row of so many places then.
fn row(
    message: &[u8],
    component: Component,
    first: Position,
    step: i64,
    places: usize,
) -> (Result<(), Refusal>, Vec<i64>) {
    let mut row = vec![BEFORE; places];
    let answer = shift_row(message, component, first, step, &mut row);
    (answer, row)
}

/// A place on the northern and southern number of one position, at a number east.
fn at(north: i64, east: i64) -> Position {
    Position { north, east }
}

#[test]
fn a_row_is_the_calls_at_each_place() {
    let message = message(0, Some(1023));
    for component in Component::ALL {
        for north in [0, SPACING / 2, -3 * SPACING / 2, 1_234_567].map(|steps| MIDDLE.north + steps) {
            for (step, places) in [(0, 3), (1, 50), (179_999, 61), (180_000, 61), (2_637, 4_096), (SPACING, 4)] {
                let (answer, row) = row(&message, component, at(north, WEST), step, places);
                assert_eq!(answer, Ok(()));
                for (place, &number) in row.iter().enumerate() {
                    assert_eq!(count(&message, component, at(north, WEST + place as i64 * step)), Ok(number));
                }
            }
        }
    }
}

#[test]
fn the_rest_of_a_row_keeps_its_numbers() {
    let message = message(0, Some(1023));
    let mut row = [BEFORE; 6];
    assert_eq!(shift_row(&message, Component::Height, MIDDLE, 1, &mut row[..4]), Ok(()));
    assert_eq!(row[4..], [BEFORE; 2]);
    assert!(row[..4].iter().all(|&number| number != BEFORE));
}

#[test]
fn a_whole_turn_gives_the_same_count_twice() {
    for longitude in [1_296_000, -1_296_000, 1_295_640, -1_295_111] {
        let message = message(5, Some(longitude));
        let once = count(&message, Component::Height, at(MIDDLE.north, HALF_TURN)).expect("inside");
        let turn = |places| row(&message, Component::Height, at(MIDDLE.north, -HALF_TURN), 2 * HALF_TURN, places);
        assert_eq!(turn(2), (Ok(()), vec![once, once]));
        assert_eq!(turn(3), (Err(Refusal::Position), vec![BEFORE; 3]));
    }
}

#[test]
fn a_refused_row_stays_as_it_was() {
    let sound = message(0, Some(1023));
    let refused = |message: &[u8], component: Component, first: Position, step: i64, places: usize| {
        let (answer, row) = row(message, component, first, step, places);
        assert_eq!(row, vec![BEFORE; places]);
        answer.expect_err("refused")
    };
    let ends = at(i64::MIN, i64::MAX);
    let (north_south, east_west, height) = (Component::NorthSouth, Component::EastWest, Component::Height);
    assert_eq!(refused(&[], height, ends, -1, 0), Refusal::Short);
    assert_eq!(refused(&sound[..72], height, ends, -1, 0), Refusal::Length);
    assert_eq!(refused(&common::projection(7), height, ends, -1, 0), Refusal::Kind);
    for (first, step, places) in
        [(MIDDLE, 0, 0), (MIDDLE, 0, MOST_PLACES + 1), (MIDDLE, -1, 1), (ends, 0, 1), (MIDDLE, i64::MAX, 2)]
    {
        assert_eq!(refused(&message(2, Some(0)), north_south, first, step, places), Refusal::Position);
    }
    assert_eq!(refused(&message(2, Some(0)), east_west, MIDDLE, 1, 2), Refusal::Off);
    assert_eq!(refused(&message(60, Some(1)), height, MIDDLE, 1, 2), Refusal::Method);
    assert_eq!(refused(&message(4, None), height, MIDDLE, 1, 2), Refusal::Origin);
    assert_eq!(refused(&message(7, Some(0)), height, MIDDLE, 1, 2), Refusal::Spacing);
    assert_eq!(refused(&sound, height, at(MIDDLE.north, WEST), SPACING, 5), Refusal::Outside);
    assert_eq!(refused(&message(10, None), height, MIDDLE, 1, 2), Refusal::Absent);
}

#[test]
fn other_components_and_a_short_row_are_refused() {
    let sound = message(0, Some(1023));
    let mut row = [BEFORE; 4];
    let mut answer = |component: u8, count: usize, room: usize| {
        let (bytes, length, to) = (sound.as_ptr(), sound.len(), row.as_mut_ptr());
        // SAFETY: the pointers are those of slices that do not overlap, and the lengths are at most theirs.
        unsafe { ffi::tarnoklej_shift_row(bytes, length, component, MIDDLE.north, MIDDLE.east, 1, count, to, room) }
    };
    for component in 3..=255 {
        assert_eq!(answer(component, 0, 0), Refusal::Component.number());
    }
    for (count, room) in [(1, 0), (4, 3), (4_096, 4)] {
        assert_eq!(answer(Component::Height.number(), count, room), Refusal::Room.number());
    }
    for count in [0, MOST_PLACES + 1, usize::MAX] {
        assert_eq!(answer(Component::Height.number(), count, 4), Refusal::Position.number());
    }
    assert_eq!(row, [BEFORE; 4]);
}

#[test]
fn the_first_place_refused_decides() {
    // Without the height of node 7, on the row of nodes 5 to 8.
    let message = message(13 + 3 * 6, None);
    let first = moved(MIDDLE, SPACING / 2, WEST - MIDDLE.east);
    let numbers =
        |east: i64, step: i64, places: usize| row(&message, Component::Height, moved(first, 0, east), step, places).0;
    assert_eq!(numbers(0, SPACING / 4, 5), Ok(()));
    assert_eq!(numbers(0, SPACING / 4, 6), Err(Refusal::Absent));
    assert_eq!(numbers(0, SPACING, 9), Err(Refusal::Absent));
    assert_eq!(numbers(-1, SPACING, 9), Err(Refusal::Outside));
    assert_eq!(numbers(SPACING, 2 * SPACING, 2), Ok(()));
}
