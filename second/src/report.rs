//! The report over many points, and the tally that is kept point by point (document 02, A10).

use crate::grid::{count_at, grid_message, COMPONENTS};
use crate::refusal::{number_of, Refusal};

/// The most points of a list and of a tally.
pub const MOST_POINTS: usize = 10_000;
/// The greatest sum without sign of a tally that takes another point.
pub const GREATEST_SUM: u64 = 100_000_000_000;
/// The refusal numbers under which points are counted, from 1 on.
pub const REFUSALS: usize = 15;

/// A position in steps, north and east.
pub type Point = [i64; 2];

/// The numbers of a report, which are also those of a tally.
#[derive(Clone, Copy, PartialEq, Eq, Default, Debug)]
pub struct Report {
    /// Points answered.
    pub answered: u64,
    /// Points refused under each number from 1 to 15.
    pub refused: [u64; REFUSALS],
    /// The smallest count.
    pub smallest: i64,
    /// The greatest count.
    pub greatest: i64,
    /// The first place of the smallest count, from 1.
    pub smallest_place: u64,
    /// The first place of the greatest count, from 1.
    pub greatest_place: u64,
    /// The sum of the counts.
    pub sum: i64,
}

impl Report {
    /// The points given: those answered and those refused.
    pub fn points(&self) -> u128 {
        self.refused.iter().fold(u128::from(self.answered), |sum, &refused| sum + u128::from(refused))
    }

    /// The numbers in the order in which the program prints them.
    pub fn numbers(&self) -> Vec<i128> {
        let mut numbers = vec![i128::from(self.answered)];
        numbers.extend(self.refused.map(i128::from));
        numbers.extend([self.smallest, self.greatest].map(i128::from));
        numbers.extend([self.smallest_place, self.greatest_place].map(i128::from));
        numbers.push(i128::from(self.sum));
        numbers
    }

    /// The tally as it is read: with no point answered it has no smallest and no greatest count, whatever stands there (D76).
    fn as_read(&self) -> Report {
        match self.answered {
            0 => Report { smallest: 0, greatest: 0, smallest_place: 0, greatest_place: 0, ..*self },
            _ => *self,
        }
    }
}

/// The place of a component, or COMPONENT.
fn known(component: u8) -> Result<usize, Refusal> {
    Some(usize::from(component)).filter(|&component| component < COMPONENTS).ok_or(Refusal::Component)
}

/// What the component's shift is at each point: its count or its refusal, a bad message being one at each.
fn answers(message: &[u8], component: usize, points: &[Point]) -> Vec<Result<i64, Refusal>> {
    match grid_message(message) {
        Err(refusal) => vec![Err(refusal); points.len()],
        Ok((message, plan)) => {
            points.iter().map(|point| count_at(&message, plan, component, point.map(i128::from))).collect()
        }
    }
}

/// The numbers of a list of answers, each from the whole list.
fn report_of(answers: &[Result<i64, Refusal>]) -> Report {
    let counts = || answers.iter().flatten().copied();
    let under = |number: usize| answers.iter().filter(|answer| usize::from(number_of(answer)) == number).count() as u64;
    let first = |count: i64| 1 + answers.iter().position(|&answer| answer == Ok(count)).expect("a count of the list");
    let (smallest, greatest) = (counts().min(), counts().max());
    Report {
        answered: under(0),
        refused: std::array::from_fn(|place| under(1 + place)),
        smallest: smallest.unwrap_or(0),
        greatest: greatest.unwrap_or(0),
        smallest_place: smallest.map_or(0, first) as u64,
        greatest_place: greatest.map_or(0, first) as u64,
        sum: counts().sum(),
    }
}

/// The report over a list of points for one component: COMPONENT, then LENGTH above 10,000 points.
pub fn report(message: &[u8], component: u8, points: &[Point]) -> Result<Report, Refusal> {
    let component = known(component)?;
    if points.len() > MOST_POINTS {
        return Err(Refusal::Length);
    }
    Ok(report_of(&answers(message, component, points)))
}

/// The same of two lists, the positions north and those east, which must have one length (decision D73).
pub fn report_points(message: &[u8], component: u8, north: &[i64], east: &[i64]) -> Result<Report, Refusal> {
    known(component)?;
    if north.len() != east.len() {
        return Err(Refusal::Length);
    }
    let points: Vec<Point> = north.iter().zip(east).map(|(&north, &east)| [north, east]).collect();
    report(message, component, &points)
}

/// A tally with one more point: COMPONENT, then LENGTH for a tally of 10,000 points or more or with a sum past 10^11 without
/// sign (decisions D74 and D75).
pub fn tallied(tally: &Report, message: &[u8], component: u8, point: Point) -> Result<Report, Refusal> {
    let component = known(component)?;
    if tally.points() >= MOST_POINTS as u128 || tally.sum.unsigned_abs() > GREATEST_SUM {
        return Err(Refusal::Length);
    }
    let place = tally.points() as u64 + 1;
    let mut after = tally.as_read();
    match answers(message, component, &[point])[0] {
        Err(refusal) => after.refused[usize::from(refusal.number()) - 1] += 1,
        Ok(count) => {
            if tally.answered == 0 || count < after.smallest {
                (after.smallest, after.smallest_place) = (count, place);
            }
            if tally.answered == 0 || count > after.greatest {
                (after.greatest, after.greatest_place) = (count, place);
            }
            after.answered += 1;
            after.sum += count;
        }
    }
    Ok(after)
}
