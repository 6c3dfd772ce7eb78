//! Points and files of sample answers to try the writer and the checker on.

use crate::answers::{claim_field, field, file_of, Claim, Point, MESSAGE_TAG, MOST_POINTS, POINT_TAG};
use crate::grid::HEIGHT;
use crate::gridsamples::Grid;

/// The height asked for at a position.
pub fn height_at(position: [i64; 2]) -> Point {
    Point { component: HEIGHT as u8, position }
}

/// The height asked for some steps from a node of grid K.
pub fn height_near(node: usize, steps: [i64; 2]) -> Point {
    let grid = Grid::k();
    height_at(grid.moved(grid.at_node(node), steps))
}

/// The points of grid K at which document 01 prints a count, with that count: P1, P2, P4, P5, P6.
pub fn claims_of_k() -> [Claim; 5] {
    let counted = [
        (height_at(Grid::k().origin()), 469_285),
        (height_near(1, [0, 0]), 469_210),
        (height_near(16, [0, 0]), 469_360),
        (height_near(6, [0, 180_000]), 469_261),
        (height_near(6, [0, 179_999]), 469_260),
    ];
    counted.map(|(point, count)| Claim { point, count })
}

/// The claims over and over, as many as asked for.
pub fn as_many(claims: &[Claim], count: usize) -> Vec<Claim> {
    claims.iter().copied().cycle().take(count).collect()
}

/// The claims with another count at a place, counted from 1.
pub fn other_count(claims: &[Claim], place: usize, count: i64) -> Vec<Claim> {
    let mut claims = claims.to_vec();
    claims[place - 1].count = count;
    claims
}

/// A file whose last point has another tag and contents of another length, filled up with zeros.
fn last_point(message: &[u8], claims: &[Claim], tag: u8, length: usize) -> Vec<u8> {
    let (last, others) = claims.split_last().expect("a point");
    let mut contents = claim_field(last).split_off(3);
    contents.resize(length, 0);
    [file_of(message, others), field(tag, &contents)].concat()
}

/// A file whose last point has the two bytes of its length exchanged.
fn length_low_byte_first(message: &[u8], claims: &[Claim]) -> Vec<u8> {
    let mut file = file_of(message, claims);
    let length = file.len() - 27;
    file.swap(length, length + 1);
    file
}

/// Files of another shape from a message and at least one point, each with a word for what is wrong.
pub fn misshapen(message: &[u8], claims: &[Claim]) -> Vec<(String, Vec<u8>)> {
    let right = file_of(message, claims);
    let points: Vec<u8> = claims.iter().flat_map(claim_field).collect();
    let behind = |more: &[u8]| [&right[..], more].concat();
    let mut files = vec![
        ("empty".to_string(), Vec::new()),
        ("points-alone".to_string(), points.clone()),
        ("message-behind-points".to_string(), [points.clone(), field(MESSAGE_TAG, message)].concat()),
        ("two-messages".to_string(), [field(MESSAGE_TAG, message), right.clone()].concat()),
        ("message-last".to_string(), behind(&field(MESSAGE_TAG, message))),
        ("1001-points".to_string(), file_of(message, &as_many(claims, MOST_POINTS + 1))),
        ("length-low-byte-first".to_string(), length_low_byte_first(message, claims)),
    ];
    for tag in [0, 2, 3, 0x81, 255] {
        let message_field = field(tag, message);
        files.push((format!("message-tag-{tag}"), [message_field, points.clone()].concat()));
    }
    for tag in [0, 1, 3, 0x82, 255] {
        files.push((format!("point-tag-{tag}"), last_point(message, claims, tag, 25)));
    }
    for length in [0, 1, 9, 17, 24, 26, 33, 25 + 256] {
        files.push((format!("point-length-{length}"), last_point(message, claims, POINT_TAG, length)));
    }
    for more in [1, 2, 3, 27, 28, 29] {
        files.push((format!("{more}-zeros-behind"), behind(&vec![0; more])));
    }
    files.push(("head-behind".to_string(), behind(&[POINT_TAG, 0, 25])));
    files
}
