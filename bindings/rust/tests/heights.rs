//! Height grids: the mean, the heights at the nodes, and the refusals in order.

use tarnoklej::*;

/// The bytes of a 1023.
const LENGTH: usize = 73;
/// The places of DF191, the origin, the spacings and DF213 in a row of a 1023.
const ON: usize = 3;
const ORIGIN: [usize; 2] = [4, 5];
const SPACING: [usize; 2] = [6, 7];
const METHOD: usize = 60;

/// The row of grid K.
fn row() -> Vec<Option<i64>> {
    example::grid_k_fields().row()
}

/// The row with another field.
fn with(place: usize, field: Option<i64>) -> Vec<Option<i64>> {
    let mut row = row();
    row[place] = field;
    row
}

/// The refusal or the message of heights.
fn written(row: &[Option<i64>], wanted: [i64; NODES]) -> Result<Vec<u8>, Refusal> {
    let mut out = vec![0xa5; LENGTH + 1];
    let length = write_heights_into(row, &wanted, &mut out)?;
    assert_eq!(out[length], 0xa5);
    out.truncate(length);
    assert_eq!(write_heights(row, &wanted).as_ref(), Ok(&out));
    Ok(out)
}

/// The mean of the message of heights.
fn mean(wanted: [i64; NODES]) -> Result<i64, Refusal> {
    let fields = read_fields(&written(&row(), wanted)?)?;
    Ok(fields[10].expect("a mean has a value"))
}

/// Heights of which all are one but the first.
fn but_first(first: i64, others: i64) -> [i64; NODES] {
    std::array::from_fn(|i| if i == 0 { first } else { others })
}

#[test]
fn the_mean_is_the_smallest_that_fits() {
    assert_eq!(mean([0; NODES]), Ok(-25));
    assert_eq!(mean([5; NODES]), Ok(-25));
    assert_eq!(mean([6; NODES]), Ok(-24));
    assert_eq!(mean([46_920; NODES]), Ok(4_667));
    assert_eq!(mean(but_first(510, 0)), Err(Refusal::NoMean));
    assert_eq!(mean(but_first(515, 5)), Ok(26));
    assert_eq!(mean(but_first(5, -505)), Ok(-25));
    assert_eq!(mean(but_first(516, 5)), Err(Refusal::NoMean));
}

#[test]
fn the_ends_of_the_mean() {
    assert_eq!(mean([-164_085; NODES]), Ok(-16_383));
    assert_eq!(mean([-163_575; NODES]), Ok(-16_383));
    assert_eq!(mean([-163_574; NODES]), Ok(-16_382));
    assert_eq!(mean([164_085; NODES]), Ok(16_383));
    for height in [-164_086, 164_086, i64::MIN, i64::MAX] {
        assert_eq!(mean([height; NODES]), Err(Refusal::NoMean));
        assert_eq!(mean(but_first(height, 0)), Err(Refusal::NoMean));
    }
    assert_eq!(mean(but_first(i64::MIN, i64::MAX)), Err(Refusal::NoMean));
}

#[test]
fn the_height_fields_are_not_looked_at() {
    let wanted = but_first(7, -20);
    let expected = written(&row(), wanted);
    let mut other = row();
    for place in [10].into_iter().chain((0..NODES).map(|i| 13 + 3 * i)) {
        other[place] = if place % 2 == 0 { Some(i64::MAX) } else { None };
    }
    assert_eq!(written(&other, wanted), expected);
}

#[test]
fn refusals_in_order() {
    let (steep, level) = (but_first(600, 0), [0; NODES]);
    let mut bad = row();
    (bad[ON], bad[METHOD], bad[ORIGIN[1]], bad[SPACING[1]], bad[1]) = (Some(0), Some(3), None, Some(0), Some(256));
    assert_eq!(written(&bad[..63], steep), Err(Refusal::Range));
    assert_eq!(written(&[&bad[..], &[Some(0)]].concat(), steep), Err(Refusal::Range));
    assert_eq!(written(&bad, steep), Err(Refusal::Off));
    bad[ON] = Some(1);
    assert_eq!(written(&bad, steep), Err(Refusal::Method));
    bad[METHOD] = Some(0);
    assert_eq!(written(&bad, steep), Err(Refusal::Origin));
    bad[ORIGIN[1]] = Some(0);
    assert_eq!(written(&bad, steep), Err(Refusal::Spacing));
    bad[SPACING[1]] = Some(1);
    assert_eq!(written(&bad, steep), Err(Refusal::NoMean));
    assert_eq!(written(&bad, level), Err(Refusal::Range));
    assert_eq!(written(&with(0, Some(1024)), level), Err(Refusal::Range));
    assert_eq!(written(&with(ORIGIN[0], None), level), Err(Refusal::Origin));
    assert_eq!(written(&with(SPACING[0], Some(0)), level), Err(Refusal::Spacing));
    let mut out = [0xa5; LENGTH - 1];
    assert_eq!(write_heights_into(&row(), &level, &mut out), Err(Refusal::Room));
    assert_eq!(out, [0xa5; LENGTH - 1]);
}

#[test]
fn counts_other_than_those_of_a_1023() {
    let (values, present, wanted) = ([1; 65], [1; 65], [0; 17]);
    let mut out = [0xa5; LENGTH];
    for (values_count, present_count, wanted_count) in
        [(63, 64, 16), (64, 63, 16), (64, 65, 16), (64, 64, 15), (64, 64, 17)]
    {
        let (values, present, wanted) = (values.as_ptr(), present.as_ptr(), wanted.as_ptr());
        let (to, room) = (out.as_mut_ptr(), out.len());
        // SAFETY: the pointers are those of slices that do not overlap, and the lengths are at most theirs.
        let answer = unsafe {
            ffi::tarnoklej_write_heights(values, values_count, present, present_count, wanted, wanted_count, to, room)
        };
        assert_eq!(answer, ffi::Written { refusal: 5, length: 0 });
    }
    assert_eq!(out, [0xa5; LENGTH]);
}

#[test]
fn the_message_holds_the_wanted_heights() {
    let wanted: [i64; NODES] = std::array::from_fn(|i| 46_921 + 31 * i as i64);
    let fields = read_fields(&written(&row(), wanted).expect("heights with a mean")).expect("a sound message");
    let mean = fields[10].expect("a mean has a value");
    for (node, height) in wanted.into_iter().enumerate() {
        assert_eq!(fields[13 + 3 * node].map(|value| 10 * mean + value), Some(height));
    }
}
