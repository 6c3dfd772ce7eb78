//! The shifts at a position from a grid message, by exact whole numbers (document 01, "The grid"; document 02, A2, A3 and A5).

use crate::message::{read, Message};
use crate::record::{write_record, Record};
use crate::refusal::Refusal;

/// What differs between the ellipsoidal grid of 1023 and the plane grid of 1024.
pub struct Plan {
    /// Origin north and east.
    pub origin: [u16; 2],
    /// Spacing north and east.
    pub spacing: [u16; 2],
    /// The means of the three components.
    pub mean: [u16; 3],
    /// The nodes of the three components.
    pub node: [u16; 3],
    /// Steps in one raw unit of origin and spacing.
    pub steps: i128,
    /// The greatest position north and east without sign, in steps.
    pub farthest: [i128; 2],
    /// Steps east in a whole turn, where positions east are longitudes.
    pub turn: Option<i128>,
    /// Counts in one raw unit of each mean.
    pub mean_factor: [i128; 3],
    /// Counts in one raw unit of each node.
    pub node_factor: [i128; 3],
}

/// Message 1023: steps of 0.0001 arc second, counts of 0.00001 arc second or 0.1 mm.
pub const ELLIPSOIDAL: Plan = Plan {
    origin: [192, 193],
    spacing: [194, 195],
    mean: [196, 197, 198],
    node: [199, 200, 201],
    steps: 5_000,
    farthest: [3_240_000_000, 6_480_000_000],
    turn: Some(12_960_000_000),
    mean_factor: [100, 100, 100],
    node_factor: [3, 3, 10],
};

/// Message 1024: steps of 1 mm, counts of 0.1 mm, the means DF206 and DF207 being 0.01 m (decision D6).
pub const PLANE: Plan = Plan {
    origin: [202, 203],
    spacing: [204, 205],
    mean: [206, 207, 208],
    node: [209, 210, 211],
    steps: 10_000,
    farthest: [1_000_000_000_000, 1_000_000_000_000],
    turn: None,
    mean_factor: [100, 100, 100],
    node_factor: [10, 10, 10],
};

/// How many components there are: north-south, east-west and height.
pub const COMPONENTS: usize = 3;
/// The place of the height among the components.
pub const HEIGHT: usize = 2;

/// A count as the add-on receives it.
#[derive(Clone, Copy, PartialEq, Debug)]
pub enum Answer {
    /// Arc seconds.
    Seconds(f64),
    /// Metres.
    Metres(f64),
    /// A refusal number.
    Refused(u8),
}

/// One component's part of the shifts at a position.
#[derive(Clone, Copy, PartialEq, Debug)]
pub struct Part {
    /// The count, or why there is none.
    pub count: Result<i64, Refusal>,
    /// The same as the add-on receives it.
    pub answer: Answer,
}

impl Part {
    /// A refused part.
    fn refused(refusal: Refusal) -> Part {
        Part { count: Err(refusal), answer: Answer::Refused(refusal.number()) }
    }

    /// An answered part: the count divided once by 100,000 for arc seconds or by 10,000 for metres.
    fn answered(count: i64, in_seconds: bool) -> Part {
        let answer = match in_seconds {
            true => Answer::Seconds(count as f64 / 100_000.0),
            false => Answer::Metres(count as f64 / 10_000.0),
        };
        Part { count: Ok(count), answer }
    }

    /// The shift as a float, 0.0 for a refused part.
    pub fn float(&self) -> f64 {
        match self.answer {
            Answer::Seconds(value) | Answer::Metres(value) => value,
            Answer::Refused(_) => 0.0,
        }
    }
}

/// The shifts of the three components at a position, each part with refusals 1 to 5, 7 and 9 to 15 in order.
pub fn shifts(bytes: &[u8], north: i64, east: i64) -> [Part; COMPONENTS] {
    match grid_message(bytes) {
        Err(refusal) => [Part::refused(refusal); COMPONENTS],
        Ok((message, plan)) => [0, 1, HEIGHT].map(|component| part(&message, plan, component, [north, east])),
    }
}

/// The shifts from a grid record: RANGE where no grid message holds it, then as for the message.
pub fn shifts_of(record: &Record, north: i64, east: i64) -> [Part; COMPONENTS] {
    match write_record(record, usize::MAX) {
        Err(refusal) => [Part::refused(refusal); COMPONENTS],
        Ok(bytes) => shifts(&bytes, north, east),
    }
}

/// A grid message and its plan, with refusals 1 to 5 and KIND in order.
pub(crate) fn grid_message(bytes: &[u8]) -> Result<(Message, &'static Plan), Refusal> {
    let message = read(bytes)?;
    let plan = plan_of(&message).ok_or(Refusal::Kind)?;
    Ok((message, plan))
}

/// One component's part at a position.
fn part(message: &Message, plan: &Plan, component: usize, position: [i64; 2]) -> Part {
    let counted = count_at(message, plan, component, position.map(i128::from));
    counted.map_or_else(Part::refused, |count| Part::answered(count, plan.turn.is_some() && component != HEIGHT))
}

/// Whether a position is within the limits of a grid message.
pub(crate) fn within_limits(plan: &Plan, position: [i128; 2]) -> bool {
    (0..2).all(|axis| position[axis].abs() <= plan.farthest[axis])
}

/// One component's count at a position, with refusals 9 to 15 in order.
pub(crate) fn count_at(message: &Message, plan: &Plan, component: usize, position: [i128; 2]) -> Result<i64, Refusal> {
    if !within_limits(plan, position) {
        return Err(Refusal::Position);
    }
    count(message, plan, component, position).map(|count| count as i64)
}

/// The plan of a grid message.
fn plan_of(message: &Message) -> Option<&'static Plan> {
    match message.number {
        1023 => Some(&ELLIPSOIDAL),
        1024 => Some(&PLANE),
        _ => None,
    }
}

/// The count at a position within the limits, with refusals 10 to 15 in order.
fn count(message: &Message, plan: &Plan, component: usize, position: [i128; 2]) -> Result<i128, Refusal> {
    let (indicator, method) = if component == HEIGHT { (191, 213) } else { (190, 212) };
    if message.number_in(indicator) == 0 {
        return Err(Refusal::Off);
    }
    if message.number_in(method) != 0 {
        return Err(Refusal::Method);
    }
    let [Some(north), Some(east)] = plan.origin.map(|df| message.reading(df)) else {
        return Err(Refusal::Origin);
    };
    let spacing = plan.spacing.map(|df| message.number_in(df) as i128 * plan.steps);
    if spacing.contains(&0) {
        return Err(Refusal::Spacing);
    }
    let origin = [north, east].map(|value| value as i128 * plan.steps);
    let cells = cells_at(spacing, differences(plan, origin, position)).ok_or(Refusal::Outside)?;
    let mean = message.reading(plan.mean[component]).ok_or(Refusal::Absent)?;
    let residual = same_in_all(&cells, |cell| residual_in(message, plan, component, spacing, cell))?;
    Ok(mean as i128 * plan.mean_factor[component] + residual)
}

/// A cell that holds the position, and the place of the position in it.
#[derive(Clone, Copy, Debug)]
struct Cell {
    /// The cell's row from the south and column from the west, 0 to 2.
    index: [usize; 2],
    /// Steps north of the southern edge and east of the western edge.
    inside: [i128; 2],
}

/// The steps north and east from the origin to the position, a difference of longitudes being brought by whole turns.
fn differences(plan: &Plan, origin: [i128; 2], position: [i128; 2]) -> [i128; 2] {
    let [north, east] = [0, 1].map(|axis| position[axis] - origin[axis]);
    [north, plan.turn.map_or(east, |turn| by_whole_turns(east, turn))]
}

/// A difference brought by whole turns to at least minus half a turn and less than half a turn (document 02, A2).
pub fn by_whole_turns(difference: i128, turn: i128) -> i128 {
    let half = turn / 2;
    (difference + half).rem_euclid(turn) - half
}

/// All cells that hold a position on or within their edges, given by its differences, or none where it is outside.
fn cells_at(spacing: [i128; 2], difference: [i128; 2]) -> Option<Vec<Cell>> {
    let [rows, columns] = [0, 1].map(|axis| intervals_at(spacing[axis], difference[axis]));
    let mut cells = Vec::new();
    for &(row, y) in &rows {
        for &(column, x) in &columns {
            cells.push(Cell { index: [row, column], inside: [y, x] });
        }
    }
    (!cells.is_empty()).then_some(cells)
}

/// The intervals between neighbouring lines that hold a difference, each with the steps from its lower end.
fn intervals_at(spacing: i128, difference: i128) -> Vec<(usize, i128)> {
    let lowest = -3 * spacing / 2;
    (0..3)
        .map(|index| (index, difference - (lowest + index as i128 * spacing)))
        .filter(|&(_, above)| 0 <= above && above <= spacing)
        .collect()
}

/// What every cell gives, which on a shared edge is the same in each.
fn same_in_all<T: PartialEq + Copy + std::fmt::Debug>(cells: &[Cell], of: impl Fn(&Cell) -> T) -> T {
    let first = of(&cells[0]);
    assert!(cells.iter().all(|cell| of(cell) == first), "cells {cells:?} differ");
    first
}

/// The nearest whole count to the exact weighted mean of a cell's four nodes, of which those with weight must have a value.
fn residual_in(
    message: &Message,
    plan: &Plan,
    component: usize,
    spacing: [i128; 2],
    cell: &Cell,
) -> Result<i128, Refusal> {
    let nodes = message.readings(plan.node[component]);
    let mut sum = 0;
    for (place, weight) in weights(spacing, cell) {
        if weight != 0 {
            let node = nodes[place].ok_or(Refusal::Absent)?;
            sum += weight * node as i128 * plan.node_factor[component];
        }
    }
    Ok(nearest(sum, spacing[0] * spacing[1]))
}

/// The place in the message of the node at a row from the south and a column from the west, node 1 being place 0.
fn node_place(row: usize, column: usize) -> usize {
    (3 - row) * 4 + column
}

/// The four nodes of a cell and their weights: south-west, south-east, north-west, north-east.
fn weights(spacing: [i128; 2], cell: &Cell) -> [(usize, i128); 4] {
    let [h, w] = spacing;
    let [y, x] = cell.inside;
    let [row, column] = cell.index;
    [
        (node_place(row, column), (w - x) * (h - y)),
        (node_place(row, column + 1), x * (h - y)),
        (node_place(row + 1, column), (w - x) * y),
        (node_place(row + 1, column + 1), x * y),
    ]
}

/// The whole number nearest to a fraction, halves going away from zero.
pub fn nearest(numerator: i128, denominator: i128) -> i128 {
    let magnitude = (2 * numerator.abs() + denominator) / (2 * denominator);
    if numerator < 0 {
        -magnitude
    } else {
        magnitude
    }
}
