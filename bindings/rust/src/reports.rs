//! Reports: what the shifts of one component are over many points.

use crate::{ffi, Component, Position, Refusal};

/// The points of the longest report.
pub const MOST_POINTS: usize = 10_000;
/// The refusals that a point can get are those of numbers 1 to 15.
const POINT_REFUSALS: usize = 15;

/// The numbers of one component over many points.
#[derive(Clone, Copy, PartialEq, Eq, Hash, Debug)]
pub struct Report {
    /// Points answered.
    pub answered: u64,
    /// Points refused under each number from 1 to 15, that of number n at place n - 1; see [`Report::refused_as`].
    pub refused: [u64; POINT_REFUSALS],
    /// The smallest count, or nothing where no point is answered.
    pub smallest: Option<Extreme>,
    /// The greatest count, or nothing where no point is answered.
    pub greatest: Option<Extreme>,
    /// The sum of the counts.
    pub sum: i64,
}

/// The smallest or the greatest count of a report, and where it is.
#[derive(Clone, Copy, PartialEq, Eq, Hash, Debug)]
pub struct Extreme {
    /// The count.
    pub count: i64,
    /// The place of the first point that has it, counted from 1.
    pub place: u64,
}

impl Report {
    /// The points that got a refusal, 0 for one that no point gets.
    pub fn refused_as(&self, refusal: Refusal) -> u64 {
        self.refused.get(usize::from(refusal.number()) - 1).copied().unwrap_or(0)
    }

    /// The points given: those answered and those refused.
    pub fn points(&self) -> u64 {
        self.answered + self.refused.iter().sum::<u64>()
    }
}

/// Gives the numbers of one component over many points.
///
/// A point is answered or refused as that component's part of [`shifts_at`](crate::shifts_at) there. A message that is
/// refused is counted at each point.
///
/// Refusals: LENGTH where there are more than [`MOST_POINTS`] points.
///
/// ```
/// use tarnoklej::example::{grid_k, MIDDLE, NODE_1};
/// use tarnoklej::{report_points, Component, Extreme, Position, Refusal};
///
/// // The middle, node 1, one step north of it, and node 1 once more.
/// let points = [MIDDLE, NODE_1, Position { north: NODE_1.north + 1, ..NODE_1 }, NODE_1];
/// let report = report_points(&grid_k(), Component::Height, &points)?;
/// assert_eq!((report.answered, report.refused_as(Refusal::Outside)), (3, 1));
/// assert_eq!(report.smallest, Some(Extreme { count: 469_210, place: 2 }));
/// assert_eq!(report.greatest, Some(Extreme { count: 469_285, place: 1 }));
/// assert_eq!(report.sum, 1_407_705);
/// # Ok::<(), Refusal>(())
/// ```
pub fn report_points(message: &[u8], component: Component, points: &[Position]) -> Result<Report, Refusal> {
    // One point above the most is enough to be refused, however many there are.
    let points = &points[..points.len().min(MOST_POINTS + 1)];
    let north: Vec<i64> = points.iter().map(|point| point.north).collect();
    let east: Vec<i64> = points.iter().map(|point| point.east).collect();
    let report = ffi::report_points(message, component.number(), &north, &east);
    Refusal::unless_done(report.refusal)?;
    let extreme = |count, place| (place > 0).then_some(Extreme { count, place });
    Ok(Report {
        answered: report.answered,
        refused: report.refused,
        smallest: extreme(report.smallest, report.smallest_place),
        greatest: extreme(report.greatest, report.greatest_place),
        sum: report.sum,
    })
}
