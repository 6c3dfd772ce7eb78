//! A vendor's sample answers: writing a file of them, and checking one (document 02, A13).

use crate::grid::{count_at, grid_message, Plan, COMPONENTS};
use crate::message::Message;
use crate::refusal::Refusal;

/// The tag of the grid message, which is the first field of a file.
pub const MESSAGE_TAG: u8 = 1;
/// The tag of a point.
pub const POINT_TAG: u8 = 2;
/// The bytes of a field before its contents: the tag, and the length in two bytes.
pub const HEAD: usize = 3;
/// The bytes of a point's contents: component, position north-south and east-west, claimed count.
pub const POINT_LENGTH: usize = 25;
/// The most points of a file.
pub const MOST_POINTS: usize = 1_000;

/// A component asked for at a position, north-south first.
#[derive(Clone, Copy, PartialEq, Eq, Debug)]
pub struct Point {
    pub component: u8,
    pub position: [i64; 2],
}

/// A point and the count that is claimed for it.
#[derive(Clone, Copy, PartialEq, Eq, Debug)]
pub struct Claim {
    pub point: Point,
    pub count: i64,
}

/// Points as three buffers side by side.
#[derive(Clone, PartialEq, Eq, Debug)]
pub struct Points {
    pub components: Vec<u8>,
    pub north: Vec<i64>,
    pub east: Vec<i64>,
}

impl Points {
    /// The three buffers of points.
    pub fn of(points: &[Point]) -> Points {
        Points {
            components: points.iter().map(|point| point.component).collect(),
            north: points.iter().map(|point| point.position[0]).collect(),
            east: points.iter().map(|point| point.position[1]).collect(),
        }
    }

    /// The points, or nothing where the buffers are of different counts.
    fn list(&self) -> Option<Vec<Point>> {
        let count = self.components.len();
        let point = |i: usize| Point { component: self.components[i], position: [self.north[i], self.east[i]] };
        (self.north.len() == count && self.east.len() == count).then(|| (0..count).map(point).collect())
    }
}

/// What a check of a file comes to.
#[derive(Clone, Copy, PartialEq, Eq, Debug)]
pub enum Checked {
    /// The file is right, with so many points.
    Accepted { points: usize },
    /// The file is of another shape, or its message is refused.
    Refused(Refusal),
    /// The first bad point stands at this place, counted from 1.
    Claim { place: usize },
}

impl Checked {
    /// The refusal number and the place, 0 where the answer has none.
    pub fn numbers(self) -> (u8, usize) {
        match self {
            Checked::Accepted { .. } => (0, 0),
            Checked::Refused(refusal) => (refusal.number(), 0),
            Checked::Claim { place } => (Refusal::Claim.number(), place),
        }
    }
}

/// A field of a file: its tag and its contents.
pub type Tagged<'file> = (u8, &'file [u8]);

/// The fields of a file one behind the other, or nothing where its bytes are not such fields to the end.
pub fn tagged_fields(file: &[u8]) -> Option<Vec<Tagged<'_>>> {
    let mut fields = Vec::new();
    let mut rest = file;
    while !rest.is_empty() {
        let (&[tag, high, low], behind) = rest.split_first_chunk::<HEAD>()?;
        let (contents, next) = behind.split_at_checked(usize::from(high) * 256 + usize::from(low))?;
        fields.push((tag, contents));
        rest = next;
    }
    Some(fields)
}

/// The claim that a field holds, or nothing where it is no field of a point.
fn claim_in(&(tag, contents): &Tagged) -> Option<Claim> {
    let (&[component], numbers) = contents.split_first_chunk::<1>()?;
    let eights: Vec<i64> = numbers.chunks(8).map(signed_number).collect();
    let right = tag == POINT_TAG && contents.len() == POINT_LENGTH;
    right.then(|| Claim { point: Point { component, position: [eights[0], eights[1]] }, count: eights[2] })
}

/// The number that bytes say in two's complement, the high byte first.
fn signed_number(bytes: &[u8]) -> i64 {
    let unsigned = bytes.iter().fold(0i128, |number, &byte| number * 256 + i128::from(byte));
    let turn = 1i128 << (8 * bytes.len());
    (if unsigned >= turn / 2 { unsigned - turn } else { unsigned }) as i64
}

/// The message and the claims of a file of the right shape.
pub fn parts(file: &[u8]) -> Option<(&[u8], Vec<Claim>)> {
    let fields = tagged_fields(file)?;
    let (&(tag, message), points) = fields.split_first()?;
    let claims: Vec<Claim> = points.iter().map(claim_in).collect::<Option<_>>()?;
    (tag == MESSAGE_TAG && claims.len() <= MOST_POINTS).then_some((message, claims))
}

/// The count at a point, with COMPONENT and then refusals 9 to 15 in order.
fn answer((message, plan): &(Message, &Plan), point: &Point) -> Result<i64, Refusal> {
    let component = usize::from(point.component);
    if component >= COMPONENTS {
        return Err(Refusal::Component);
    }
    count_at(message, plan, component, point.position.map(i128::from))
}

/// Checks a file: LAYOUT, refusals 1 to 5 and KIND of the message, then CLAIM with the place of the first bad point.
pub fn check(file: &[u8]) -> Checked {
    let Some((message, claims)) = parts(file) else { return Checked::Refused(Refusal::Layout) };
    let grid = match grid_message(message) {
        Err(refusal) => return Checked::Refused(refusal),
        Ok(grid) => grid,
    };
    match claims.iter().position(|claim| answer(&grid, &claim.point) != Ok(claim.count)) {
        Some(before) => Checked::Claim { place: before + 1 },
        None => Checked::Accepted { points: claims.len() },
    }
}

/// The bytes of a field whose contents have at most 65,535 bytes.
pub fn field(tag: u8, contents: &[u8]) -> Vec<u8> {
    let length = u16::try_from(contents.len()).expect("a length of two bytes");
    [&[tag], &length.to_be_bytes()[..], contents].concat()
}

/// The bytes of a point's field.
pub fn claim_field(claim: &Claim) -> Vec<u8> {
    let Claim { point: Point { component, position: [north, east] }, count } = *claim;
    let numbers = [north, east, count].map(i64::to_be_bytes).concat();
    field(POINT_TAG, &[&[component], &numbers[..]].concat())
}

/// The bytes of a file of a message and claims, right or not.
pub fn file_of(message: &[u8], claims: &[Claim]) -> Vec<u8> {
    let points: Vec<u8> = claims.iter().flat_map(claim_field).collect();
    [field(MESSAGE_TAG, message), points].concat()
}

/// The claims that are right at points, or the refusal of the first refused point.
pub fn right_claims(message: &[u8], points: &[Point]) -> Result<Vec<Claim>, Refusal> {
    let grid = grid_message(message)?;
    points.iter().map(|&point| Ok(Claim { point, count: answer(&grid, &point)? })).collect()
}

/// Writes the file of a message and points: refusals 1 to 5 and KIND of the message, LENGTH for buffers of different
/// counts (decision D81), the refusal of the first refused point, LENGTH above 1,000 points, ROOM.
pub fn write(message: &[u8], points: &Points, room: usize) -> Result<Vec<u8>, Refusal> {
    grid_message(message)?;
    let points = points.list().ok_or(Refusal::Length)?;
    let claims = right_claims(message, &points)?;
    if claims.len() > MOST_POINTS {
        return Err(Refusal::Length);
    }
    let file = file_of(message, &claims);
    if file.len() > room {
        Err(Refusal::Room)
    } else {
        Ok(file)
    }
}
