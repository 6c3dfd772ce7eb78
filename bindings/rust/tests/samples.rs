//! Sample answers: a file by hand, shapes, bad points, and the refusals in order.

mod common;

use common::in_repository;
use example::{grid_k, MIDDLE, NODE_1, NODE_16};
use tarnoklej::*;

/// The height at a position.
const fn height(position: Position) -> Sample {
    Sample { component: Component::Height, position }
}

/// Document 01's points P1, P2, P4, P5 and P6, and the counts there.
const POINTS: [Sample; 5] = [
    height(MIDDLE),
    height(NODE_1),
    height(NODE_16),
    height(Position::new(1_765_800_000, 394_380_000)),
    height(Position::new(1_765_800_000, 394_379_999)),
];
const COUNTS: [i64; 5] = [469_285, 469_210, 469_360, 469_261, 469_260];
/// One step north of the grid, where it answers OUTSIDE.
const OUTSIDE: Sample = height(Position::new(1_769_400_001, 390_600_000));
/// The bytes of the message's field.
const MESSAGE_FIELD: usize = SAMPLES_HEAD + 73;

/// The bytes of a file of a message and claims, made without the library.
fn file_of(message: &[u8], claims: &[(Sample, i64)]) -> Vec<u8> {
    let mut file = vec![1, (message.len() >> 8) as u8, message.len() as u8];
    file.extend(message);
    for (point, count) in claims {
        file.extend([2, 0, 25, point.component.number()]);
        let numbers = [point.position.north, point.position.east, *count];
        numbers.iter().for_each(|number| file.extend(number.to_be_bytes()));
    }
    file
}

/// The five points with their counts.
fn claims() -> Vec<(Sample, i64)> {
    POINTS.into_iter().zip(COUNTS).collect()
}

/// The file that is written, or the refusal.
fn written(message: &[u8], points: &[Sample]) -> Result<Vec<u8>, Refusal> {
    let mut out = vec![0xa5; SAMPLES_HEAD + message.len() + SAMPLE_SIZE * points.len() + 1];
    let length = write_samples_into(message, points, &mut out)?;
    assert_eq!(out[length..], [0xa5]);
    out.truncate(length);
    assert_eq!(write_samples(message, points).as_ref(), Ok(&out));
    Ok(out)
}

/// The refusal of a file that is not accepted.
fn refused(refusal: Refusal) -> Result<(), NotAccepted> {
    Err(NotAccepted::Refused(refusal))
}

#[test]
fn the_worked_points_are_written_and_accepted() {
    let file = file_of(&grid_k(), &claims());
    assert_eq!(file.len(), 216);
    assert_eq!(written(&grid_k(), &POINTS), Ok(file.clone()));
    assert_eq!(check_samples(&file), Ok(()));
    assert_eq!(check_samples(&file_of(&grid_k(), &[])), Ok(()));
    assert_eq!(written(&grid_k(), &[]), Ok(file_of(&grid_k(), &[])));
}

#[test]
fn the_example_is_written_and_accepted() {
    let file = std::fs::read(in_repository("examples/samples.bin")).expect("the example");
    assert_eq!(written(&grid_k(), &POINTS), Ok(file));
    let wrong = std::fs::read(in_repository("examples/samples-wrong.bin")).expect("the wrong example");
    assert_eq!(check_samples(&wrong), Err(NotAccepted::Claim(3)));
}

#[test]
fn the_first_bad_point_is_named() {
    for place in 1..=POINTS.len() {
        for count in [0, COUNTS[place - 1] - 1, COUNTS[place - 1] + 1, -COUNTS[place - 1], i64::MIN, i64::MAX] {
            let mut wrong = claims();
            wrong[place - 1].1 = count;
            wrong[4].1 = if place == 5 { count } else { 0 };
            assert_eq!(check_samples(&file_of(&grid_k(), &wrong)), Err(NotAccepted::Claim(place)));
        }
        for point in [OUTSIDE, Sample { component: Component::NorthSouth, ..POINTS[0] }] {
            let mut wrong = claims();
            wrong[place - 1] = (point, 0);
            let refusal = check_samples(&file_of(&grid_k(), &wrong)).map_err(NotAccepted::refusal);
            assert_eq!(refusal, Err(Refusal::Claim));
            assert_eq!(check_samples(&file_of(&grid_k(), &wrong)), Err(NotAccepted::Claim(place)));
        }
        // The component is the byte behind a point's tag and length.
        let mut other = file_of(&grid_k(), &claims());
        other[MESSAGE_FIELD + SAMPLE_SIZE * (place - 1) + 3] = 3;
        assert_eq!(check_samples(&other), Err(NotAccepted::Claim(place)));
    }
}

#[test]
fn any_other_shape_is_layout() {
    let file = file_of(&grid_k(), &claims());
    for length in 0..file.len() {
        let whole = length >= MESSAGE_FIELD && (length - MESSAGE_FIELD) % SAMPLE_SIZE == 0;
        let expected = if whole { Ok(()) } else { refused(Refusal::Layout) };
        assert_eq!(check_samples(&file[..length]), expected, "cut at {length}");
    }
    // Tags and lengths of the message and of the last point.
    for at in [0, 1, 2, 188, 189, 190] {
        for value in [0, 1, 2, 3, 24, 25, 26, 72, 73, 74, 255].into_iter().filter(|&value| value != file[at]) {
            let mut other = file.clone();
            other[at] = value;
            assert_eq!(check_samples(&other), refused(Refusal::Layout), "byte {at} is {value}");
        }
    }
    assert_eq!(check_samples(&[&file[..], &[2]].concat()), refused(Refusal::Layout));
    assert_eq!(check_samples(&[&file[MESSAGE_FIELD..], &file[..MESSAGE_FIELD]].concat()), refused(Refusal::Layout));
}

#[test]
fn the_message_is_refused_before_its_points() {
    let mut filled = grid_k();
    filled[72] |= 1;
    let mut far = grid_k();
    // The bit of 2^19 in DF192, which makes it 877,088.
    far[2] |= 1;
    let cases = [
        (vec![], Refusal::Short),
        (vec![0; 73], Refusal::Number),
        (grid_k()[..72].to_vec(), Refusal::Length),
        ([&grid_k()[..], &[0; 65_462]].concat(), Refusal::Length),
        (filled, Refusal::Fill),
        (far, Refusal::Range),
        (common::projection(5), Refusal::Kind),
    ];
    let wrong = [(OUTSIDE, 0)];
    for (message, refusal) in cases {
        assert_eq!(check_samples(&file_of(&message, &wrong)), refused(refusal), "{refusal}");
        assert_eq!(written(&message, &[OUTSIDE]), Err(refusal), "{refusal}");
    }
}

#[test]
fn the_writers_refusals_in_order() {
    let many: Vec<Sample> = POINTS.into_iter().cycle().take(MOST_SAMPLES + 1).collect();
    let with = |last: Sample| [&many[..], &[last]].concat();
    assert_eq!(written(&grid_k(), &with(OUTSIDE)), Err(Refusal::Outside));
    let off = Sample { component: Component::EastWest, ..POINTS[0] };
    assert_eq!(written(&grid_k(), &[POINTS[0], off, OUTSIDE]), Err(Refusal::Off));
    assert_eq!(written(&grid_k(), &[POINTS[0], height(Position::new(0, i64::MIN)), OUTSIDE]), Err(Refusal::Position));
    assert_eq!(written(&grid_k(), &many), Err(Refusal::Length));
    assert_eq!(write_samples(&grid_k(), &many), Err(Refusal::Length));
    assert_eq!(write_samples(&grid_k(), &with(OUTSIDE)), Err(Refusal::Outside));
    assert_eq!(write_samples_into(&grid_k(), &many, &mut []), Err(Refusal::Length));
    let mut out = vec![0xa5; MESSAGE_FIELD + SAMPLE_SIZE * MOST_SAMPLES - 1];
    assert_eq!(write_samples_into(&grid_k(), &many[..MOST_SAMPLES], &mut out), Err(Refusal::Room));
    assert!(out.iter().all(|&byte| byte == 0xa5));
    let most = written(&grid_k(), &many[..MOST_SAMPLES]).expect("a file of the most points");
    assert_eq!(check_samples(&most), Ok(()));
    assert_eq!(check_samples(&[&most[..], &most[MESSAGE_FIELD..][..28]].concat()), refused(Refusal::Layout));
}

/// What the library answers to three buffers of points, of which the first so many are given.
fn answer(components: &[u8], counts: [usize; 3], out: &mut [u8]) -> ffi::Written {
    let (message, numbers) = (grid_k(), [0; 3]);
    let (bytes, length) = (message.as_ptr(), message.len());
    let (components, numbers, to, room) = (components.as_ptr(), numbers.as_ptr(), out.as_mut_ptr(), out.len());
    let [of_components, of_north, of_east] = counts;
    // SAFETY: the pointers are those of slices that do not overlap, and the lengths are at most theirs.
    unsafe {
        ffi::tarnoklej_write_samples(
            bytes,
            length,
            components,
            of_components,
            numbers,
            of_north,
            numbers,
            of_east,
            to,
            room,
        )
    }
}

#[test]
fn counts_that_differ_and_other_components_are_refused() {
    let mut out = [0xa5; 200];
    let refused = |refusal: Refusal| ffi::Written { refusal: refusal.number(), length: 0 };
    for counts in [[2, 3, 3], [3, 2, 3], [3, 3, 2], [0, 1, 1], [1, 0, 0], [0, 0, 3]] {
        assert_eq!(answer(&[2; 3], counts, &mut out), refused(Refusal::Length));
    }
    for component in 3..=255 {
        assert_eq!(answer(&[component; 3], [3; 3], &mut out), refused(Refusal::Component));
    }
    assert_eq!(out, [0xa5; 200]);
}
