//! The datum step against worked positions and against formula 3.5-1 in doubles.

use tarnoklej::*;

/// The place of the computation indicator (DF150) in the row of a 1021 with empty names.
const INDICATOR: usize = 6;
/// The place of the first of the seven parameters (DF156) in such a row.
const PARAMETERS: usize = 12;

/// The row of a 1021 with empty names and seven parameters, whose other fields are zero.
fn row_of(parameters: [i64; 7]) -> [Option<i64>; 25] {
    let mut row = [Some(0); 25];
    row[0] = Some(1021);
    row[PARAMETERS..PARAMETERS + 7].copy_from_slice(&parameters.map(Some));
    row
}

/// The message of a row.
fn written(row: &[Option<i64>]) -> Vec<u8> {
    write_fields(row).expect("a sound row")
}

/// The step of a message, which must be answered.
fn step(message: &[u8], position: [i64; 3]) -> [i64; 3] {
    let Geocentric { x, y, z } = refused_or_step(message, position).expect("a step");
    [x, y, z]
}

/// The step of a message or its refusal.
fn refused_or_step(message: &[u8], [x, y, z]: [i64; 3]) -> Result<Geocentric, Refusal> {
    datum_step(message, Geocentric { x, y, z })
}

/// A 1021 of seven parameters in wire order.
fn message(parameters: [i64; 7]) -> Vec<u8> {
    written(&row_of(parameters))
}

/// Stops where a coordinate is not within one unit of its exact target, of which the whole number below is given, and
/// whether the target is that number itself.
fn assert_within(got: [i64; 3], below: [i64; 3], whole: [bool; 3]) {
    for axis in 0..3 {
        let least = below[axis] - i64::from(whole[axis]);
        assert!((least..=below[axis] + 1).contains(&got[axis]), "{got:?} for {below:?}");
    }
}

#[test]
fn no_parameters_leave_a_position_in_place() {
    let none = message([0; 7]);
    for position in [[0, 0, 0], [FARTHEST, -FARTHEST, 1], [-1, 2, -3], [41_498_712_345, 7_985_412_345, -47_893_256_789]]
    {
        assert_within(step(&none, position), position, [true; 3]);
    }
}

#[test]
fn translations_are_millimetres() {
    let far = message([4_194_303, -4_194_303, 1, 0, 0, 0, 0]);
    assert_within(step(&far, [0, 0, 0]), [41_943_030, -41_943_030, 10], [true; 3]);
}

#[test]
fn each_rotation_has_the_place_and_sign_of_the_standard() {
    // 10^9 steps turn 10^11 units by 9,696,273,622.1907 units; RX is 1, RY 2, RZ 3 in the printed matrix.
    let printed = [[0, 3, -2], [-3, 0, 1], [2, -1, 0]];
    for rotation in 0..3 {
        for axis in 0..3 {
            let (mut parameters, mut position) = ([0; 7], [0; 3]);
            (parameters[3 + rotation], position[axis]) = (1_000_000_000, FARTHEST);
            let below = [0, 1, 2].map(|row| match printed[row][axis] {
                entry if entry == rotation as i64 + 1 => 9_696_273_622,
                entry if entry == -(rotation as i64) - 1 => -9_696_273_623,
                _ if row == axis => FARTHEST,
                _ => 0,
            });
            let whole = below.map(|number| number == 0 || number == FARTHEST);
            assert_within(step(&message(parameters), position), below, whole);
        }
    }
}

#[test]
fn the_scale_multiplies_the_rotated_position_and_not_the_translation() {
    let scaled = message([4_000_000, 0, 0, 0, 0, 2_000_000_000, 16_777_215]);
    // The rotated x is 19392547244.3814, which the scale enlarges by 3253529.345..
    let got = step(&scaled, [0, FARTHEST, 0]);
    assert_within(got, [19_435_800_773, 100_016_777_215, 0], [false, true, true]);
}

#[test]
fn the_ends_of_all_ranges() {
    let (r, s) = (i64::from(i32::MAX), 16_777_215);
    let ends = message([-4_194_303, 4_194_303, -1, r, -r, r, s]);
    let got = step(&ends, [FARTHEST, FARTHEST, -FARTHEST]);
    assert_within(got, [99_974_834_185, 58_406_555_262, -141_668_942_208], [true, false, false]);
}

#[test]
fn refusals_in_order() {
    let far = [0, 0, FARTHEST + 1];
    let mut row = row_of([0; 7]);
    row[INDICATOR] = Some(1);
    row[PARAMETERS + 6] = None;
    let both = written(&row);
    assert_eq!(refused_or_step(&both[..1], far), Err(Refusal::Short));
    assert_eq!(refused_or_step(&both[..51], far), Err(Refusal::Length));
    let grid = written(&{
        let mut grid = [Some(0); 64];
        grid[0] = Some(1023);
        grid
    });
    assert_eq!(refused_or_step(&grid, far), Err(Refusal::Kind));
    assert_eq!(refused_or_step(&both, far), Err(Refusal::Position));
    assert_eq!(refused_or_step(&both, [i64::MIN, 0, 0]), Err(Refusal::Position));
    assert_eq!(refused_or_step(&both, [0, -FARTHEST, FARTHEST]), Err(Refusal::Method));
    for indicator in 1..16 {
        row[INDICATOR] = Some(indicator);
        assert_eq!(refused_or_step(&written(&row), [0; 3]), Err(Refusal::Method));
    }
    for parameter in 0..7 {
        let mut row = row_of([1; 7]);
        row[PARAMETERS + parameter] = None;
        assert_eq!(refused_or_step(&written(&row), [0; 3]), Err(Refusal::Absent), "parameter {parameter}");
    }
}

#[test]
fn a_refused_step_has_coordinates_zero() {
    let message = message([1; 7]);
    // SAFETY: the pointer and the length are those of a slice.
    let answer = unsafe { ffi::tarnoklej_datum_step(message.as_ptr(), message.len(), 1, 2, FARTHEST + 1) };
    assert_eq!(answer, ffi::Position { refusal: 9, x: 0, y: 0, z: 0 });
}

#[test]
fn the_longitude_area_and_names_do_not_matter() {
    let mut row = row_of([1; 7]).to_vec();
    row[8] = None;
    row[9] = None;
    row.splice(1..3, [Some(2), Some(65), Some(66), Some(1), Some(67)]);
    let position = [41_498_712_345, 7_985_412_345, 47_893_256_789];
    assert_eq!(step(&written(&row), position), step(&message([1; 7]), position));
}
