//! Reports: against numbers that document 01 prints, against the calls at each point, and each refusal.

mod common;

use common::{grid_k_with, moved, projection};
use example::{MIDDLE, NODE_1, NODE_16, NODE_6};
use tarnoklej::*;

/// The spacing of the grid in steps, north and east.
const SPACING: i64 = 3_600_000;
/// No point at all.
const NOTHING: Report = Report { answered: 0, refused: [0; 15], smallest: None, greatest: None, sum: 0 };

/// The report of heights over a list of points.
fn report(message: &[u8], points: &[Position]) -> Result<Report, Refusal> {
    report_points(message, Component::Height, points)
}

/// A report in which all points are refused as one number.
fn all_refused(refusal: Refusal, points: u64) -> Report {
    let mut report = NOTHING;
    report.refused[usize::from(refusal.number()) - 1] = points;
    report
}

/// A count and the place where it is first.
fn extreme(count: i64, place: u64) -> Option<Extreme> {
    Some(Extreme { count, place })
}

#[test]
fn worked_points_are_reported() {
    let points = [MIDDLE, NODE_1, moved(NODE_1, 1, 0), NODE_16, moved(NODE_6, 0, 180_000), moved(NODE_6, 0, 179_999)];
    let grid = grid_k_with(&[]);
    let answer = report(&grid, &points).expect("a report");
    assert_eq!((answer.answered, answer.points()), (5, 6));
    assert_eq!((answer.smallest, answer.greatest), (extreme(469_210, 2), extreme(469_360, 4)));
    assert_eq!(answer.sum, 2_346_376);
    for refusal in Refusal::ALL {
        assert_eq!(answer.refused_as(refusal), u64::from(refusal == Refusal::Outside));
    }
    for component in [Component::NorthSouth, Component::EastWest] {
        assert_eq!(report_points(&grid, component, &points), Ok(all_refused(Refusal::Off, 6)));
    }
    assert_eq!(report(&grid_k_with(&[(6, Some(0))]), &points), Ok(all_refused(Refusal::Spacing, 6)));
}

#[test]
fn the_first_of_equal_counts_has_the_place() {
    let message = grid_k_with(&[(13 + 3 * 6, None)]);
    let points = [moved(NODE_6, 0, 1), NODE_6, NODE_1, NODE_6, moved(NODE_6, 0, 1), NODE_1];
    let answer = report(&message, &points).expect("a report");
    assert_eq!((answer.answered, answer.refused_as(Refusal::Absent)), (4, 2));
    assert_eq!((answer.smallest, answer.greatest), (extreme(469_210, 3), extreme(469_260, 2)));
    assert_eq!(answer.sum, 2 * 469_210 + 2 * 469_260);
}

#[test]
fn a_report_is_the_calls_at_each_point() {
    let nodes: Vec<(usize, Option<i64>)> =
        (0..16).map(|node| (13 + 3 * node, Some((node as i64 * 37) % 300 - 150))).collect();
    let message = grid_k_with(&[&nodes[..], &[(10, Some(-3))]].concat());
    let points: Vec<Position> = (0..2_000)
        .map(|i| moved(MIDDLE, (i * 7_919) % SPACING - SPACING / 3, (i * 104_729) % (4 * SPACING) - 2 * SPACING))
        .collect();
    let answer = report(&message, &points).expect("a report");
    let counts: Vec<Result<i64, Refusal>> =
        points.iter().map(|&point| shifts_at(&message, point).height.map(|shift| shift.count)).collect();
    let answered: Vec<i64> = counts.iter().flatten().copied().collect();
    let first = |count: i64| {
        let place = counts.iter().position(|&answer| answer == Ok(count)).expect("a count");
        extreme(count, place as u64 + 1)
    };
    assert!(answered.len() > 1_000 && answered.len() < 2_000);
    assert_eq!((answer.answered, answer.sum), (answered.len() as u64, answered.iter().sum()));
    assert_eq!(answer.smallest, first(*answered.iter().min().expect("counts")));
    assert_eq!(answer.greatest, first(*answered.iter().max().expect("counts")));
    assert_eq!(answer.refused_as(Refusal::Outside), 2_000 - answer.answered);
    assert_eq!(answer.points(), 2_000);
}

#[test]
fn a_bad_message_counts_at_each_point() {
    let sound = grid_k_with(&[]);
    let points = [MIDDLE, Position::new(i64::MIN, i64::MAX), NODE_1];
    assert_eq!(report(&[], &points), Ok(all_refused(Refusal::Short, 3)));
    assert_eq!(report(&sound[..72], &points), Ok(all_refused(Refusal::Length, 3)));
    assert_eq!(report(&projection(5), &points), Ok(all_refused(Refusal::Kind, 3)));
    assert_eq!(report(&sound, &points[1..2]), Ok(all_refused(Refusal::Position, 1)));
    assert_eq!(report(&sound, &[]), Ok(NOTHING));
    assert_eq!(report(&[], &[]), Ok(NOTHING));
}

#[test]
fn too_many_points_are_refused() {
    let (message, many) = (grid_k_with(&[]), vec![MIDDLE; 3 * MOST_POINTS]);
    let most = report(&message, &many[..MOST_POINTS]).expect("a report of the most points");
    assert_eq!((most.answered, most.sum), (10_000, 4_692_850_000));
    for count in [MOST_POINTS + 1, MOST_POINTS + 2, 3 * MOST_POINTS] {
        assert_eq!(report(&message, &many[..count]), Err(Refusal::Length));
        assert_eq!(report(&[], &many[..count]), Err(Refusal::Length));
    }
}

#[test]
fn refusals_in_order_leave_a_report_of_zeros() {
    let message = grid_k_with(&[]);
    let numbers = vec![0; MOST_POINTS + 1];
    let answer = |component: u8, north_count: usize, east_count: usize| {
        let (bytes, length, numbers) = (message.as_ptr(), message.len(), numbers.as_ptr());
        // SAFETY: the pointers are those of slices, and the lengths are at most theirs.
        unsafe { ffi::tarnoklej_report_points(bytes, length, component, numbers, north_count, numbers, east_count) }
    };
    let refused = |refusal: Refusal| ffi::Report {
        refusal: refusal.number(),
        answered: 0,
        refused: [0; 15],
        smallest: 0,
        greatest: 0,
        smallest_place: 0,
        greatest_place: 0,
        sum: 0,
    };
    for component in 3..=255 {
        assert_eq!(answer(component, 1, 1), refused(Refusal::Component));
        assert_eq!(answer(component, 1, 0), refused(Refusal::Component));
    }
    for (north, east) in [(0, 1), (1, 0), (10_000, 9_999), (10_001, 10_000), (10_000, 10_001)] {
        assert_eq!(answer(Component::Height.number(), north, east), refused(Refusal::Length));
    }
}
