//! Shifts against numbers that document 01 prints, each part and each refusal.

mod common;

use common::{grid_k_with, moved, projection};
use example::{grid_k, grid_k_fields, MIDDLE, NODE_1, NODE_16, NODE_6};
use tarnoklej::*;

/// 180 degrees in steps.
const HALF_TURN: i64 = 6_480_000_000;

/// The count of the height shift of a message at a position.
fn height(message: &[u8], position: Position) -> Result<i64, Refusal> {
    shifts_at(message, position).height.map(|shift| shift.count)
}

/// The refusal numbers of the three parts of a message at a position, 0 where a part is answered.
fn refusals(message: &[u8], position: Position) -> [u8; 3] {
    let shifts = shifts_at(message, position);
    Component::ALL.map(|component| shifts.of(component).map_or_else(Refusal::number, |_| 0))
}

#[test]
fn grid_k_is_that_of_document_01() {
    let mut row = vec![1023, 7, 0, 1, 352_800, 79_200, 720, 720, 0, 0, 4_692];
    (1..=16).for_each(|node| row.extend([0, 0, node]));
    row.extend([0; 5]);
    let row: Vec<Option<i64>> = row.into_iter().map(Some).collect();
    assert_eq!(read_fields(&grid_k()), Ok(row.clone()));
    assert_eq!(grid_k_fields().row(), row);
    assert_eq!(MIDDLE, Position::from_degrees(49.0, 11.0));
}

#[test]
fn worked_shifts_are_answered() {
    let k = grid_k();
    let negated: Vec<(usize, Option<i64>)> = (0..16).map(|i| (13 + 3 * i, Some(-1 - i as i64))).collect();
    assert_eq!(height(&k, MIDDLE), Ok(469_285));
    assert_eq!(height(&k, NODE_1), Ok(469_210));
    assert_eq!(height(&k, moved(NODE_1, 1, 0)), Err(Refusal::Outside));
    assert_eq!(height(&k, NODE_16), Ok(469_360));
    assert_eq!(height(&k, moved(NODE_6, 0, 180_000)), Ok(469_261));
    assert_eq!(height(&k, moved(NODE_6, 0, 179_999)), Ok(469_260));
    assert_eq!(height(&grid_k_with(&negated), moved(NODE_6, 0, 180_000)), Ok(469_139));
}

#[test]
fn a_grid_across_180_degrees_is_answered_on_both_sides() {
    let at = |north: Position, east: i64| Position { north: north.north, east };
    for (longitude, meridian) in [(1_296_000, 469_285), (-1_296_000, 469_285), (1_295_640, 469_290)] {
        let across = grid_k_with(&[(5, Some(longitude))]);
        assert_eq!(height(&across, at(MIDDLE, HALF_TURN)), Ok(meridian));
        assert_eq!(height(&across, at(MIDDLE, -HALF_TURN)), Ok(meridian));
        assert_eq!(height(&across, at(MIDDLE, HALF_TURN + 1)), Err(Refusal::Position));
    }
    // The grid's middle is at 179.95 degrees and its eastern edge at -179.9.
    let across = grid_k_with(&[(5, Some(1_295_640))]);
    assert_eq!(height(&across, at(NODE_16, 3_600_000 - HALF_TURN)), Ok(469_360));
    assert_eq!(height(&across, at(NODE_16, 3_600_001 - HALF_TURN)), Err(Refusal::Outside));
    assert_eq!(height(&across, at(NODE_1, HALF_TURN - 7_200_000)), Ok(469_210));
    assert_eq!(height(&across, at(NODE_1, HALF_TURN - 7_200_001)), Err(Refusal::Outside));
}

#[test]
fn worked_refusals_are_given() {
    assert_eq!(refusals(&grid_k(), MIDDLE), [10, 10, 0]);
    assert_eq!(refusals(&projection(7), MIDDLE), [7, 7, 7]);
    let mut others = vec![(13 + 3 * 6, None)];
    assert_eq!(height(&grid_k_with(&others), NODE_6), Ok(469_260));
    assert_eq!(height(&grid_k_with(&others), moved(NODE_6, 0, 1)), Err(Refusal::Absent));
    others.push((6, Some(0)));
    assert_eq!(height(&grid_k_with(&others), MIDDLE), Err(Refusal::Spacing));
    others.push((4, None));
    assert_eq!(height(&grid_k_with(&others), MIDDLE), Err(Refusal::Origin));
    assert_eq!(refusals(&[], MIDDLE), [1, 1, 1]);
}

/// Grid K with both shifts on and means of 1, -2 and 4,692, and other values at places of its row.
fn with_means(others: &[(usize, Option<i64>)]) -> Vec<u8> {
    grid_k_with(&[&[(2, Some(1)), (8, Some(1)), (9, Some(-2))], others].concat())
}

#[test]
fn each_part_is_a_float_with_its_unit_and_count() {
    let answered = |value, unit, count| Ok(Shift { value, unit, count });
    let shifts = shifts_at(&with_means(&[]), MIDDLE);
    assert_eq!(shifts.north, answered(0.001, Unit::ArcSecond, 100));
    assert_eq!(shifts.east, answered(-0.002, Unit::ArcSecond, -200));
    assert_eq!(shifts.height, answered(46.9285, Unit::Metre, 469_285));
    // A 1024 with its means at their ends, whose shifts are metres.
    let mut plane = Message::new(1024).expect("a grid");
    let fields = [(190, 1), (191, 1), (202, 100), (203, 100), (204, 700), (205, 700), (206, 511), (207, -511)];
    for (df, value) in fields.into_iter().chain([(208, 16_383)]) {
        plane.set(df, value).expect("a field of a 1024");
    }
    let shifts = shifts_at(&plane.write().expect("a sound row"), Position::new(1_000_000, 1_000_000));
    assert_eq!(shifts.north, answered(5.11, Unit::Metre, 51_100));
    assert_eq!(shifts.east, answered(-5.11, Unit::Metre, -51_100));
    assert_eq!(shifts.height, answered(163.83, Unit::Metre, 1_638_300));
}

#[test]
fn parts_are_refused_each_for_itself() {
    let with = |place: usize, value: Option<i64>| refusals(&with_means(&[(place, value)]), MIDDLE);
    assert_eq!(refusals(&with_means(&[]), MIDDLE), [0, 0, 0]);
    assert_eq!((with(2, Some(0)), with(3, Some(0))), ([10, 10, 0], [0, 0, 10]));
    assert_eq!((with(59, Some(1)), with(60, Some(1))), ([11, 11, 0], [0, 0, 11]));
    for (component, alone) in [[15, 0, 0], [0, 15, 0], [0, 0, 15]].into_iter().enumerate() {
        assert_eq!(with(8 + component, None), alone);
        assert_eq!(with(11 + 3 * 5 + component, None), alone);
    }
    assert_eq!((with(5, None), with(7, Some(0))), ([12; 3], [13; 3]));
}

#[test]
fn a_refused_part_reads_zero() {
    let message = with_means(&[(59, Some(3))]);
    // SAFETY: the pointer and the length are those of a slice.
    let at = unsafe { ffi::tarnoklej_shifts_at(message.as_ptr(), message.len(), MIDDLE.north, MIDDLE.east) };
    assert_eq!([at.north, at.east, at.height].map(f64::to_bits), [0, 0, 46.9285f64.to_bits()]);
    assert_eq!([at.north_count, at.east_count, at.height_count], [0, 0, 469_285]);
    assert_eq!([at.north_refusal, at.east_refusal, at.height_refusal], [11, 11, 0]);
    assert_eq!([at.north_unit, at.east_unit, at.height_unit], [0, 0, 2]);
}

#[test]
fn a_position_that_is_no_number_is_refused() {
    for degrees in [f64::NAN, f64::INFINITY, f64::NEG_INFINITY, 1e300, -1e300] {
        assert_eq!(height(&grid_k(), Position::from_degrees(degrees, 11.0)), Err(Refusal::Position));
        assert_eq!(height(&grid_k(), Position::from_degrees(49.0, degrees)), Err(Refusal::Position));
        assert!(Position::from_metres(degrees, 0.0).north.unsigned_abs() > 1 << 62, "{degrees}");
    }
    assert_eq!(Position::from_degrees(49.000_000_013, 10.999_999_987), MIDDLE);
    assert_eq!(Position::from_degrees(49.000_000_014, 10.999_999_986), moved(MIDDLE, 1, -1));
    assert_eq!(Position::from_metres(-0.0006, 0.0004), Position::new(-1, 0));
}
