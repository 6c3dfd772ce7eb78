//! Cases of the report of points that are lent as a list of structs (document 02, A10).

use super::antimeridian::random_grid_across;
use super::shifts::{random_grid, steep};
use super::Case;
use crate::gridsamples::{Grid, HALF_TURN};
use crate::hex::hex;
use crate::random::Random;
use crate::refusal::number_of;
use crate::report::{report, Point, MOST_POINTS};
use crate::reportsamples::{any_points, worked_points};
use crate::samples::Sample;

/// The most points that stand in a line; longer lists go through them over and over.
const MOST_IN_LINE: usize = 16;

/// All cases of reports.
pub fn cases() -> Vec<Case> {
    let mut cases = worked();
    cases.extend(counts());
    cases.extend(components());
    cases.extend(bad_messages().into_iter().map(|(word, bytes)| case(word, &bytes, 2, &worked_points(), 6)));
    cases.extend(random_lists());
    cases
}

/// A case of a list of points that goes through those given over and over.
fn case(name: &str, bytes: &[u8], component: u8, given: &[Point], count: usize) -> Case {
    assert!(given.len() <= MOST_IN_LINE && (count == 0 || !given.is_empty()));
    let points: Vec<Point> = given.iter().copied().cycle().take(count).collect();
    let answer = report(bytes, component, &points);
    let words: String = given.iter().map(|[north, east]| format!(" {north} {east}")).collect();
    let numbers: Vec<String> = answer.unwrap_or_default().numbers().iter().map(i128::to_string).collect();
    Case {
        name: format!("points-{name}"),
        call: format!("points {component} {count} {}{words}", hex(bytes)),
        answer: format!("{} : {}", number_of(&answer), numbers.join(" ")),
    }
}

/// Lists whose counts are equal, rise, fall, change their sign, or are refused in part.
fn worked() -> Vec<Case> {
    let k = Grid::k();
    let six = k.at_node(6);
    let east = |steps: i64| [six[0], six[1] + steps];
    let listed = |name: &str, grid: &Grid, points: &[Point]| case(name, &grid.bytes(), 2, points, points.len());
    let ends = [[i64::MIN, i64::MAX], [0, HALF_TURN + 1], [0, -HALF_TURN], six];
    let mut backwards = worked_points();
    backwards.reverse();
    vec![
        listed("worked", &k, &worked_points()),
        listed("backwards", &k, &backwards),
        listed("negated", &k.negated(), &worked_points()),
        listed("absent", &k.set_node(2, 7, None), &[six, east(1), east(3_600_000)]),
        listed("spacing", &k.set(194, 0), &worked_points()),
        listed("one", &k, &[six]),
        listed("one-refused", &k, &[[six[0], i64::MIN]]),
        listed("equal", &k, &[six, east(1), k.at_node(1), six, k.at_node(1), east(180_000)]),
        listed("ends", &k, &ends),
    ]
}

/// Lists of no point, of a few and of very many, around the most that a report takes.
fn counts() -> Vec<Case> {
    let bytes = Grid::k().bytes();
    let given = worked_points();
    let mut cases = vec![case("none", &bytes, 1, &[], 0), case("none-of-some", &bytes, 1, &given, 0)];
    for count in [1, 2, 7, 100, 4_096, MOST_POINTS - 1, MOST_POINTS, MOST_POINTS + 1] {
        cases.push(case(&format!("count-{count}"), &bytes, 2, &given, count));
        cases.push(case(&format!("count-{count}-steep"), &steep(1024).bytes(), 0, &steep_points(), count));
    }
    cases
}

/// The nodes of a steep plane grid.
fn steep_points() -> Vec<Point> {
    let grid = steep(1024);
    (1..=MOST_IN_LINE).map(|node| grid.at_node(node)).collect()
}

/// Every component and numbers that are none, which come before the length of the list.
fn components() -> Vec<Case> {
    let mut cases = Vec::new();
    for component in [0, 1, 2, 3, 4, 127, 128, 255] {
        for count in [0, 6, MOST_POINTS + 1] {
            let name = format!("component-{component}-count-{count}");
            cases.push(case(&name, &Grid::k().bytes(), component, &worked_points(), count));
        }
    }
    cases
}

/// Messages that are refused at every point, each for another reason.
pub(super) fn bad_messages() -> Vec<(&'static str, Vec<u8>)> {
    let k = Grid::k();
    let mut filled = k.bytes();
    *filled.last_mut().expect("a message") |= 1;
    vec![
        ("short", vec![0x3f]),
        ("number", vec![0; 73]),
        ("length", k.bytes()[..72].to_vec()),
        ("fill", filled),
        ("range", Sample::usual(1021).with(152, 162_001).bytes()),
        ("kind", Sample::zeros(1025).bytes()),
        ("off", k.set(191, 0).bytes()),
        ("method", k.set(213, 2).bytes()),
        ("origin", k.set(192, None).bytes()),
        ("mean", k.set(198, None).bytes()),
    ]
}

/// Random lists on random grids in every component.
fn random_lists() -> Vec<Case> {
    let mut random = Random::new(61);
    let mut cases = Vec::new();
    for i in 0..60usize {
        let grid = match i % 3 {
            0 => random_grid(&mut random, 1023),
            1 => random_grid(&mut random, 1024),
            _ => random_grid_across(&mut random),
        };
        let given = 1 + random.below(MOST_IN_LINE as u64) as usize;
        let points = any_points(&mut random, &grid, given);
        let count = random.below(3 * MOST_IN_LINE as u64) as usize;
        cases.push(case(&format!("random-{i}"), &grid.bytes(), (i / 3 % 3) as u8, &points, count));
    }
    cases
}
