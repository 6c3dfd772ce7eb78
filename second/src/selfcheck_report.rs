//! The second program's own checks of the report over many points and of the tally (document 02, A10).

use crate::grid::{shifts, COMPONENTS};
use crate::gridsamples::Grid;
use crate::random::Random;
use crate::refusal::{number_of, Refusal};
use crate::report::{report, report_points, tallied, Point, Report, GREATEST_SUM, MOST_POINTS, REFUSALS};
use crate::report_program::printed;
use crate::reportsamples::{any_points, over_and_over, texts, worked_points};
use crate::samples::Sample;
use crate::selfcheck::Group;
use crate::vectors::antimeridian::random_grid_across;
use crate::vectors::shifts::random_grid;

/// All groups of checks of reports.
pub fn groups() -> Vec<Group> {
    vec![worked(), bad_messages(), as_the_calls(), limits(), tally_as_reports(), tallies(), program(), bad_lines()]
}

/// The numbers of a report whose points refused all stand under one number.
fn numbers(answered: u64, refused: (usize, u64), [smallest, greatest]: [(i64, u64); 2], sum: i64) -> Report {
    let mut report = Report { answered, sum, ..Report::default() };
    if refused.1 > 0 {
        report.refused[refused.0 - 1] = refused.1;
    }
    (report.smallest, report.smallest_place) = smallest;
    (report.greatest, report.greatest_place) = greatest;
    report
}

/// A report in which every point is refused under one number.
fn all_refused(number: usize, points: u64) -> Report {
    numbers(0, (number, points), [(0, 0); 2], 0)
}

/// Reports of grid K by numbers that document 01 prints.
fn worked() -> Group {
    let mut group = Group::new("reports through P1 to P11");
    let k = Grid::k();
    let points = worked_points();
    let of = |grid: &Grid, points: &[Point]| report(&grid.bytes(), 2, points);
    // 469,285, 469,210, OUTSIDE, 469,360, 469,261 and 469,260.
    let expected = numbers(5, (14, 1), [(469_210, 2), (469_360, 4)], 2_346_376);
    group.equal("P1 to P6", of(&k, &points), Ok(expected));
    // P6 and P5: 469,260 and 469,261; then node 1 and P2 once more, whose first place counts.
    let again = [points[5], points[4], points[1], points[1], points[4]];
    let expected = numbers(5, (0, 0), [(469_210, 3), (469_261, 2)], 2 * 469_261 + 469_260 + 2 * 469_210);
    group.equal("P6, P5 and twice P2", of(&k, &again), Ok(expected));
    group.equal("P1", of(&k, &points[..1]), Ok(numbers(1, (0, 0), [(469_285, 1); 2], 469_285)));
    group.equal("P3", of(&k, &points[2..3]), Ok(all_refused(14, 1)));
    group.equal("P3 and P4", of(&k, &points[2..4]), Ok(numbers(1, (14, 1), [(469_360, 2); 2], 469_360)));
    group.equal("P7", of(&k.negated(), &points[4..5]), Ok(numbers(1, (0, 0), [(469_139, 1); 2], 469_139)));
    let six = k.at_node(6);
    let absent = k.set_node(2, 7, None);
    let expected = numbers(1, (15, 2), [(469_260, 2); 2], 469_260);
    let one_east = [six[0], six[1] + 1];
    group.equal("P9, P8, P9", of(&absent, &[one_east, six, one_east]), Ok(expected));
    group.equal("P10", report(&k.bytes(), 0, &points), Ok(all_refused(10, 6)));
    group.equal("P11", of(&k.set(194, 0), &points), Ok(all_refused(13, 6)));
    group.equal("no points", of(&k, &[]), Ok(Report::default()));
    group
}

/// A bad message counts at each point.
fn bad_messages() -> Group {
    let mut group = Group::new("reports of bad messages");
    let p12 = Sample::zeros(1021).bytes();
    let k = Grid::k().bytes();
    let fill = |bytes: &[u8]| [&bytes[..bytes.len() - 1], &[bytes[bytes.len() - 1] | 1]].concat();
    let range = Sample::zeros(1021).with(152, 162_001).bytes();
    let messages = [
        (1, Vec::new()),
        (2, vec![0, 0]),
        (3, [&p12[..], &[0]].concat()),
        (3, k[..72].to_vec()),
        (4, fill(&p12)),
        (5, range),
        (7, p12),
    ];
    for (number, message) in messages {
        group.equal("each point", report(&message, 2, &worked_points()), Ok(all_refused(number, 6)));
        group.equal("no points", report(&message, 2, &[]), Ok(Report::default()));
        group.equal("component", report(&message, 3, &[]), Err(Refusal::Component));
    }
    let past = [[3_240_000_001, 0], [0, -6_480_000_001], [i64::MIN, i64::MAX]];
    group.equal("past the limits", report(&k, 2, &past), Ok(all_refused(9, 3)));
    group
}

/// A grid of one of three kinds.
fn any_grid(random: &mut Random, turn: usize) -> Grid {
    match turn % 3 {
        0 => random_grid(random, 1023),
        1 => random_grid(random, 1024),
        _ => random_grid_across(random),
    }
}

/// A list of points, every other one with the same points over and over.
fn any_list(random: &mut Random, grid: &Grid, turn: usize) -> Vec<Point> {
    let count = random.below(40) as usize;
    let points = any_points(random, grid, count + 1);
    match turn % 2 {
        0 => points[1..].to_vec(),
        _ => over_and_over(random, &points[..1 + count / 8], count),
    }
}

/// The report by the call of the three shifts at each point, one number after the other.
fn by_calls(message: &[u8], component: usize, points: &[Point]) -> Report {
    let mut report = Report::default();
    for (place, &[north, east]) in (1..).zip(points) {
        match shifts(message, north, east)[component].count {
            Err(refusal) => report.refused[usize::from(refusal.number()) - 1] += 1,
            Ok(count) => {
                report.answered += 1;
                report.sum += count;
                if report.answered == 1 || count < report.smallest {
                    (report.smallest, report.smallest_place) = (count, place);
                }
                if report.answered == 1 || count > report.greatest {
                    (report.greatest, report.greatest_place) = (count, place);
                }
            }
        }
    }
    report
}

/// A report is made of the component's part of the call at each point, and answered and refused are the points given.
fn as_the_calls() -> Group {
    let mut group = Group::new("reports as the calls at each point");
    let mut random = Random::new(102);
    for turn in 0..900 {
        let grid = any_grid(&mut random, turn);
        let points = any_list(&mut random, &grid, turn / 3);
        for component in 0..COMPONENTS {
            let expected = by_calls(&grid.bytes(), component, &points);
            group.equal("report", report(&grid.bytes(), component as u8, &points), Ok(expected));
            group.equal("points", expected.points(), points.len() as u128);
        }
    }
    group
}

/// COMPONENT before LENGTH, and the most points.
fn limits() -> Group {
    let mut group = Group::new("the refusals of a report");
    let k = Grid::k();
    let many = vec![k.origin(); MOST_POINTS + 1];
    let most = numbers(10_000, (0, 0), [(469_285, 1); 2], 4_692_850_000);
    group.equal("10,000 points", report(&k.bytes(), 2, &many[1..]), Ok(most));
    group.equal("10,001 points", report(&k.bytes(), 2, &many), Err(Refusal::Length));
    group.equal("10,001 points of a bad message", report(&[], 2, &many), Err(Refusal::Length));
    for component in 3..=255 {
        group.equal("component", report(&k.bytes(), component, &many), Err(Refusal::Component));
        group.equal("component alone", report(&k.bytes(), component, &many[..1]), Err(Refusal::Component));
        group.equal("component of two lists", report_points(&[], component, &[1], &[]), Err(Refusal::Component));
    }
    let [norths, easts] = [0, 1].map(|axis| many.iter().map(|point| point[axis]).collect::<Vec<i64>>());
    group.equal("two lists", report_points(&k.bytes(), 2, &norths[1..], &easts[1..]), Ok(most));
    group.equal("too long", report_points(&k.bytes(), 2, &norths, &easts), Err(Refusal::Length));
    for (north, east) in [(0, 1), (1, 0), (3, 2), (9_999, 10_000), (10_001, 10_000), (10_000, 10_001)] {
        let unequal = report_points(&k.bytes(), 2, &norths[..north], &easts[..east]);
        group.equal("unequal counts", unequal, Err(Refusal::Length));
    }
    group
}

/// From all zeros and with one message and component the tally is the report over the points so far, after each.
fn tally_as_reports() -> Group {
    let mut group = Group::new("tallies as reports after every point");
    let mut random = Random::new(103);
    for turn in 0..450 {
        let grid = any_grid(&mut random, turn);
        let message = if turn % 10 == 9 { grid.bytes()[1..].to_vec() } else { grid.bytes() };
        let points = any_list(&mut random, &grid, turn / 3);
        let component = (turn % COMPONENTS) as u8;
        let mut tally = Report::default();
        for (place, &point) in points.iter().enumerate() {
            tally = tallied(&tally, &message, component, point).expect("a tally of few points");
            group.equal("tally", Ok(tally), report(&message, component, &points[..=place]));
        }
    }
    let (message, point) = (Grid::k().bytes(), Grid::k().origin());
    let mut tally = Report::default();
    for _ in 0..MOST_POINTS {
        tally = tallied(&tally, &message, 2, point).expect("a tally below 10,000 points");
    }
    group.equal("10,000 points", Ok(tally), report(&message, 2, &[point; MOST_POINTS]));
    group.equal("one more", tallied(&tally, &message, 2, point), Err(Refusal::Length));
    group
}

/// Tallies that no list gives: what is refused, and what is read as zero.
fn tallies() -> Group {
    let mut group = Group::new("tallies with any numbers");
    let (message, [north, east]) = (Grid::k().bytes(), Grid::k().origin());
    let (inside, outside) = ([north, east], [north, 0]);
    let number = |tally: Report, component: u8| number_of(&tallied(&tally, &message, component, inside));
    let full = Report { answered: 9_999, refused: [0; REFUSALS], ..Report::default() };
    group.equal("9,999 answered", number(full, 2), 0);
    group.equal("and one refused", number(Report { refused: std::array::from_fn(|i| (i == 14) as u64), ..full }, 2), 3);
    group.equal("greatest numbers", number(Report { answered: u64::MAX, refused: [u64::MAX; REFUSALS], ..full }, 2), 3);
    group.equal("component first", number(Report { answered: u64::MAX, ..full }, 3), 8);
    let sum = |sum: i64| Report { answered: 1, sum, ..Report::default() };
    for sign in [1, -1] {
        group.equal("sum", number(sum(sign * GREATEST_SUM as i64), 2), 0);
        group.equal("sum past", number(sum(sign * (GREATEST_SUM as i64 + 1)), 2), 3);
    }
    group.equal("least sum", number(sum(i64::MIN), 2), 3);
    group.equal("component before the sum", number(sum(i64::MIN), 3), 8);
    // With no point answered the four numbers are read as zero, and the sum as it stands.
    let odd = Report { smallest: -5, greatest: 7, smallest_place: 9, greatest_place: 8, sum: 11, ..Report::default() };
    let refused = Report { sum: 11, ..all_refused(14, 1) };
    group.equal("refused", tallied(&odd, &message, 2, outside), Ok(refused));
    let answered = numbers(1, (0, 0), [(469_285, 1); 2], 469_296);
    group.equal("answered", tallied(&odd, &message, 2, inside), Ok(answered));
    // With one answered they are taken as they stand.
    let odd = Report { answered: 1, ..odd };
    let expected = numbers(2, (0, 0), [(-5, 9), (469_285, 2)], 469_296);
    group.equal("taken", tallied(&odd, &message, 2, inside), Ok(expected));
    let equal = Report { smallest: 469_285, greatest: 469_285, ..odd };
    let expected = numbers(2, (0, 0), [(469_285, 9), (469_285, 8)], 469_296);
    group.equal("equal counts keep their places", tallied(&equal, &message, 2, inside), Ok(expected));
    group
}

/// The whole output for the worked points, and its form for others.
fn program() -> Group {
    let mut group = Group::new("the program report");
    let output = |name: &str| {
        let texts = texts();
        let (_, text) = texts.iter().find(|text| text.0 == name).expect("a text of this name");
        printed(text)
    };
    let zeros = "0\n".repeat(13);
    let expected = format!("5\n{zeros}1\n0\n469210\n469360\n2\n4\n2346376\n");
    group.equal("P1 to P6", output("worked"), expected.clone());
    for name in ["empty-lines-at-the-end", "no-newline-at-the-end"] {
        group.equal(name, output(name), expected.clone());
    }
    group.equal("no points", output("no-points"), "0\n".repeat(21));
    for (name, line) in [("component-3", 8), ("component-255", 8), ("10001", 3), ("10001-component-3", 8), ("25000", 3)]
    {
        group.equal(name, output(name), format!("refused {line}\n"));
    }
    group.check(output("10000").lines().count() == 21, || "10,000 points are not answered".to_string());
    // Six points are answered as above, the seventh is P1 once more.
    let widest = format!("6\n{zeros}1\n0\n469210\n469360\n2\n4\n2815661\n");
    group.equal("widest line", output("widest-line"), widest.clone());
    // The same and a point at the equator, which is outside.
    group.equal("leading zeros", output("leading-zeros"), widest.replacen("\n1\n", "\n2\n", 1));
    group
}

/// The bad line that is named: the first line of a bad message, the second of a bad component, the ninth of a bad point.
fn bad_lines() -> Group {
    let mut group = Group::new("bad lines of the program report");
    for (name, text) in texts().into_iter().filter(|(name, _)| name.starts_with("bad-")) {
        let line = match name.as_str() {
            "bad-empty" | "bad-newline" => 1,
            "bad-no-component" | "bad-no-component-no-newline" => 2,
            "bad-behind-10001" => 10_004,
            name if name.starts_with("bad-message-") => 1,
            name if name.starts_with("bad-component-") => 2,
            _ => 9,
        };
        group.equal(&name, printed(&text), format!("bad input: line {line}\n"));
    }
    group
}
