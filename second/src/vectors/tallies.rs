//! Cases of a tally that is lent and updated by one point (document 02, A10).

use super::antimeridian::random_grid_across;
use super::points::bad_messages;
use super::shifts::random_grid;
use super::Case;
use crate::gridsamples::Grid;
use crate::hex::hex;
use crate::random::Random;
use crate::refusal::number_of;
use crate::report::{tallied, Point, Report, GREATEST_SUM, MOST_POINTS, REFUSALS};
use crate::reportsamples::{any_points, worked_points};

/// The most points and the greatest sum as the numbers of a tally.
const MOST: u64 = MOST_POINTS as u64;
const GREATEST: i64 = GREATEST_SUM as i64;

/// All cases of tallies.
pub fn cases() -> Vec<Case> {
    let lists = [from_zeros(), lengths(), sums(), components(), read_as_zero(), first_places(), refused_points()];
    lists.into_iter().chain([random_histories()]).flatten().collect()
}

/// A case of a tally and one point more: the number that is answered, and the tally afterwards.
fn case(name: &str, tally: &Report, bytes: &[u8], component: u8, [north, east]: Point) -> Case {
    let answer = tallied(tally, bytes, component, [north, east]);
    let words = |report: &Report| report.numbers().iter().map(i128::to_string).collect::<Vec<String>>().join(" ");
    Case {
        name: format!("tally-{name}"),
        call: format!("tally {component} {north} {east} {} {}", hex(bytes), words(tally)),
        answer: format!("{} : {}", number_of(&answer), words(&answer.unwrap_or(*tally))),
    }
}

/// A case of a point that is answered, the middle of grid K's heights.
fn at_the_middle(name: &str, tally: &Report) -> Case {
    case(name, tally, &Grid::k().bytes(), 2, Grid::k().origin())
}

/// A tally of some points answered with one count over and over.
fn of_points(answered: u64, count: i64) -> Report {
    let sum = count * answered as i64;
    Report {
        answered,
        smallest: count,
        greatest: count,
        smallest_place: 1,
        greatest_place: 1,
        sum,
        ..Report::default()
    }
}

/// A tally from all zeros through grid K's worked points, and through them backwards.
fn from_zeros() -> Vec<Case> {
    let mut backwards = worked_points();
    backwards.reverse();
    let mut cases = history("worked", &Grid::k(), 2, &worked_points());
    cases.extend(history("backwards", &Grid::k().negated(), 2, &backwards));
    cases
}

/// The cases of a tally from all zeros through a list of points.
fn history(name: &str, grid: &Grid, component: u8, points: &[Point]) -> Vec<Case> {
    let bytes = grid.bytes();
    let mut tally = Report::default();
    let mut cases = Vec::new();
    for (place, &point) in points.iter().enumerate() {
        cases.push(case(&format!("{name}-{place}"), &tally, &bytes, component, point));
        tally = tallied(&tally, &bytes, component, point).unwrap_or(tally);
    }
    cases
}

/// Tallies of 10,000 points and near it, by points answered and by points refused, also where their sum passes 64 bits.
fn lengths() -> Vec<Case> {
    let mut cases = Vec::new();
    for points in [MOST - 2, MOST - 1, MOST, MOST + 1, 1 << 32, 1 << 63, u64::MAX - 1, u64::MAX] {
        let answered = Report { sum: 0, ..of_points(points.min(MOST), 0) };
        cases.push(at_the_middle(&format!("answered-{points}"), &Report { answered: points, ..answered }));
        for place in [0, 7, REFUSALS - 1] {
            let mut tally = Report::default();
            tally.refused[place] = points;
            cases.push(at_the_middle(&format!("refused-{}-{points}", place + 1), &tally));
        }
        let mut both = of_points(5_000, 3);
        both.refused[2] = points - 5_000;
        cases.push(at_the_middle(&format!("both-{points}"), &both));
    }
    for each in [666, 667, u64::MAX] {
        let tally = Report { refused: [each; REFUSALS], ..of_points(9, -4) };
        cases.push(at_the_middle(&format!("each-{each}"), &tally));
    }
    let mut past = of_points(1, 1);
    (past.refused[0], past.refused[14]) = (u64::MAX, 1);
    cases.push(at_the_middle("past-64-bits", &past));
    cases
}

/// Tallies with sums at 10^11 without sign, past it, and at the ends of 64 bits.
fn sums() -> Vec<Case> {
    let mut cases = Vec::new();
    let near = [GREATEST - 1, GREATEST, GREATEST + 1, 2 * GREATEST, i64::MAX];
    for sum in near.into_iter().flat_map(|sum| [sum, -sum]).chain([i64::MIN]) {
        let word = sum.to_string().replace('-', "minus-");
        cases.push(at_the_middle(&format!("sum-{word}"), &Report { sum, ..of_points(9_000, 1) }));
        let none = Report { sum, ..Report::default() };
        cases.push(case(&format!("sum-{word}-none"), &none, &Grid::k().bytes(), 2, [0, 0]));
    }
    cases
}

/// Components that are none, which come before the length, and components that are refused at the point.
fn components() -> Vec<Case> {
    let mut cases = Vec::new();
    for component in [0, 1, 2, 3, 4, 128, 255] {
        for (word, tally) in [
            ("zeros", Report::default()),
            ("some", of_points(8, 469_300)),
            ("full", of_points(MOST, 1)),
            ("sum", Report { sum: GREATEST + 1, ..of_points(3, 1) }),
        ] {
            let name = format!("component-{component}-{word}");
            cases.push(case(&name, &tally, &Grid::k().bytes(), component, Grid::k().origin()));
        }
    }
    cases
}

/// Tallies with no point answered and any numbers for the smallest and the greatest count and their places.
fn read_as_zero() -> Vec<Case> {
    let mut cases = Vec::new();
    for (word, low, high, places) in [
        ("small", -5, 9, 3),
        ("least", i64::MIN, i64::MIN, u64::MAX),
        ("greatest", i64::MAX, i64::MAX, u64::MAX),
        ("crossed", i64::MAX, i64::MIN, 1),
    ] {
        for refused in [0, 4] {
            let mut tally = Report { smallest: low, greatest: high, ..Report::default() };
            (tally.smallest_place, tally.greatest_place, tally.refused[13]) = (places, places, refused);
            cases.push(at_the_middle(&format!("zero-{word}-{refused}-answered"), &tally));
            let far = [Grid::k().origin()[0], 0];
            cases.push(case(&format!("zero-{word}-{refused}-refused"), &tally, &Grid::k().bytes(), 2, far));
            cases.push(case(&format!("zero-{word}-{refused}-kept"), &tally, &Grid::k().bytes(), 3, far));
        }
    }
    cases
}

/// Counts below, at, between and above the smallest and the greatest so far, which keep their first places.
fn first_places() -> Vec<Case> {
    let count = tallied(&Report::default(), &Grid::k().bytes(), 2, Grid::k().origin()).expect("an answer").sum;
    let mut cases = Vec::new();
    for low in [i64::MIN, count - 1, count, count + 1] {
        for high in [count - 1, count, count + 1, i64::MAX] {
            let mut tally = Report { smallest: low, greatest: high, sum: -77, ..of_points(20, 0) };
            (tally.smallest_place, tally.greatest_place, tally.refused[8]) = (4, 17, 30);
            let near = |number: i64| match number {
                i64::MIN => "least".to_string(),
                i64::MAX => "greatest".to_string(),
                _ => (number - count + 1).to_string(),
            };
            cases.push(at_the_middle(&format!("first-{}-{}", near(low), near(high)), &tally));
        }
    }
    cases
}

/// Points refused under every number, by the message and by the point, each counted in its place.
fn refused_points() -> Vec<Case> {
    let k = Grid::k();
    let mut tally = of_points(100, 5);
    tally.refused = std::array::from_fn(|place| place as u64 + 1);
    let mut cases: Vec<Case> = bad_messages()
        .into_iter()
        .map(|(word, bytes)| case(&format!("refused-{word}"), &tally, &bytes, 2, k.origin()))
        .collect();
    let positions = [("position", [i64::MIN, i64::MAX]), ("outside", [k.origin()[0], 0]), ("answered", k.origin())];
    for (word, position) in positions {
        cases.push(case(&format!("refused-{word}"), &tally, &k.bytes(), 2, position));
    }
    let absent = k.set_node(2, 7, None).bytes();
    cases.push(case("refused-absent", &tally, &absent, 2, k.origin()));
    cases.push(case("refused-spacing", &tally, &k.set(195, 0).bytes(), 2, k.origin()));
    cases
}

/// Tallies from all zeros over random points of random grids in every component.
fn random_histories() -> Vec<Case> {
    let mut random = Random::new(63);
    let mut cases = Vec::new();
    for i in 0..9usize {
        let grid = match i % 3 {
            0 => random_grid(&mut random, 1023),
            1 => random_grid(&mut random, 1024),
            _ => random_grid_across(&mut random),
        };
        let points = any_points(&mut random, &grid, 12);
        cases.extend(history(&format!("random-{i}"), &grid, (i / 3) as u8, &points));
    }
    cases
}
