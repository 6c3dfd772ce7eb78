//! Compares a vendor's sample answers: writing a file of them, and checking one.

use crate::messages::{any_room, of_kind, pick, place};
use crate::shifting::{any_grid, any_grid_across, any_position, limits};
use crate::writing::{same_output, BEHIND};
use crate::{same, Compared};
use second::answers::{check, claim_field, field, file_of, right_claims, write};
use second::answers::{Claim, Point, Points, HEAD, MESSAGE_TAG, MOST_POINTS, POINT_LENGTH, POINT_TAG};
use second::answersamples::{as_many, misshapen};
use second::damage::Damage;
use second::gridsamples::Grid;
use second::hex::hex;
use second::random::Random;
use tarnoklej::ffi;

/// How many kinds of lists of points and of files there are.
const LISTS: u64 = 12;
const FILES: u64 = 20;
/// The points of most lists at most, a list near the most points coming once in many.
const FEW_POINTS: u64 = 9;
/// Of the turns of a kind, that on which its list is near the most points.
const ONCE_IN: u64 = 20;
/// The bytes of a point in a file, and of room behind a file.
const POINT_FIELD: usize = HEAD + POINT_LENGTH;
const MORE_ROOM: usize = 40;

/// A point of any component inside or beside a grid.
fn any_point(random: &mut Random, grid: &Grid) -> Point {
    Point { component: random.below(3) as u8, position: any_position(random, grid) }
}

/// Points that the grid answers, at most as many as asked for.
fn answered(random: &mut Random, grid: &Grid, most: u64) -> Vec<Point> {
    let message = grid.bytes();
    let tries = (0..random.below(most + 1) * 2).map(|_| any_point(random, grid));
    tries.filter(|&point| right_claims(&message, &[point]).is_ok()).take(most as usize).collect()
}

/// A point that a grid refuses, mostly: of another component, beyond the limits, outside, or any.
fn refused(random: &mut Random, grid: &Grid) -> Point {
    let point = any_point(random, grid);
    let [north, east] = grid.moved(grid.origin(), grid.spacing().map(|spacing| spacing * 2));
    match random.below(5) {
        0 => Point { component: 3 + random.below(253) as u8, ..point },
        1 => Point { component: pick(random, &[3, 255, 2, 128]), position: [random.bits() as i64, i64::MIN] },
        2 => Point { position: [limits(grid)[0] + 1, east], ..point },
        3 => Point { position: [north, point.position[1]], ..point },
        _ => point,
    }
}

/// The points with others put in between.
fn with_refused(random: &mut Random, grid: &Grid, mut points: Vec<Point>, count: usize) -> Vec<Point> {
    for _ in 0..count {
        let at = random.below(points.len() as u64 + 1) as usize;
        points.insert(at, refused(random, grid));
    }
    points
}

/// The points over and over, near the most points, now and then with a refused one behind them.
fn near_the_most(random: &mut Random, grid: &Grid, points: &[Point]) -> Vec<Point> {
    let count = pick(random, &[MOST_POINTS, MOST_POINTS + 1, MOST_POINTS - 1, MOST_POINTS, MOST_POINTS + 30]);
    let mut many: Vec<Point> = points.iter().copied().cycle().take(count).collect();
    if random.below(4) == 0 {
        many.push(refused(random, grid));
    }
    many
}

/// A grid, by turns one that answers, one across 180 degrees, and one of any kind.
fn a_grid(random: &mut Random, turn: u64) -> Grid {
    match turn % 4 {
        0 | 1 => any_grid(random, 0),
        2 => any_grid_across(random, 0),
        _ => any_grid(random, turn / 4),
    }
}

/// The grid of a list's kind: two of the kinds have reasons to refuse every point.
fn grid_of_list(random: &mut Random, turn: u64) -> Grid {
    match turn % LISTS {
        8 | 11 => any_grid(random, 5 + turn / LISTS % 8),
        _ => a_grid(random, turn / LISTS),
    }
}

/// A list of points of one of the kinds.
fn any_list(random: &mut Random, grid: &Grid, turn: u64) -> Vec<Point> {
    let points = answered(random, grid, FEW_POINTS);
    match turn % LISTS {
        0..=3 => points,
        4 => with_refused(random, grid, points, 1),
        5 => with_refused(random, grid, points, 3),
        6 | 7 => (0..1 + random.below(FEW_POINTS)).map(|_| any_point(random, grid)).collect(),
        8 | 11 => vec![any_point(random, grid)],
        9 if turn / LISTS % ONCE_IN == 0 => near_the_most(random, grid, &points),
        _ => points,
    }
}

/// The buffers with one, two or all of them cut or extended.
fn other_counts(random: &mut Random, mut points: Points) -> Points {
    let count = points.components.len();
    let mut other = || match random.below(5) {
        0 => count,
        1 => count + 1,
        2 => count.saturating_sub(1),
        3 => 0,
        _ => random.below(2 * FEW_POINTS) as usize,
    };
    let counts = [other(), other(), other()];
    points.components.resize(counts[0], 2);
    points.north.resize(counts[1], 0);
    points.east.resize(counts[2], 0);
    points
}

/// Compares one file that is written, two kinds of which are of any message, and one or more with buffers of any counts.
pub fn compare_written(random: &mut Random, turn: u64) -> Compared {
    let grid = grid_of_list(random, turn);
    let mut points = Points::of(&any_list(random, &grid, turn));
    let of_any_message = [3, 6].contains(&(turn % LISTS));
    if turn % LISTS == 10 || (of_any_message && random.below(4) == 0) {
        points = other_counts(random, points);
    }
    let message = if of_any_message { of_kind(random, turn / LISTS) } else { grid.bytes() }.into_boxed_slice();
    let components = points.components.clone().into_boxed_slice();
    let (north, east) = (points.north.clone().into_boxed_slice(), points.east.clone().into_boxed_slice());
    let needed = HEAD + message.len() + POINT_FIELD * components.len().min(MOST_POINTS);
    let room = any_room(random, needed, needed + MORE_ROOM);
    // SAFETY: the pointers are those of slices that do not overlap, and the lengths are at most theirs.
    let call = |out| unsafe {
        ffi::tarnoklej_write_samples(
            message.as_ptr(),
            message.len(),
            components.as_ptr(),
            components.len(),
            north.as_ptr(),
            north.len(),
            east.as_ptr(),
            east.len(),
            out,
            room,
        )
    };
    let answer = write(&message, &points, room);
    let before = random.bytes(room + BEHIND);
    same_output(before, answer, call, || format!("{} {points:?} room {room}", hex(&message)))
}

/// A grid with the right claims at points that it answers.
fn right(random: &mut Random, turn: u64, most: u64) -> (Vec<u8>, Vec<Claim>) {
    let grid = a_grid(random, turn);
    let message = grid.bytes();
    let points = answered(random, &grid, most);
    let claims = right_claims(&message, &points).expect("points that are answered");
    (message, claims)
}

/// The claims with another count at one place, mostly one more or one less.
fn wrong_count(random: &mut Random, mut claims: Vec<Claim>) -> Vec<Claim> {
    if !claims.is_empty() {
        let at = place(random, &claims);
        let count = claims[at].count;
        claims[at].count = match random.below(6) {
            0 => random.bits() as i64,
            1 => -count,
            2 => count ^ 1 << random.below(64),
            3 => count - 1,
            4 => 0,
            _ => count + 1,
        };
    }
    claims
}

/// A file in which a point is put that the grid refuses, mostly, with the claim 0 or any.
fn with_refused_claim(random: &mut Random, turn: u64) -> Vec<u8> {
    let grid = a_grid(random, turn);
    let message = grid.bytes();
    let mut claims = right_claims(&message, &answered(random, &grid, FEW_POINTS)).expect("points that are answered");
    let at = random.below(claims.len() as u64 + 1) as usize;
    let count = if random.below(3) == 0 { random.bits() as i64 } else { 0 };
    claims.insert(at, Claim { point: refused(random, &grid), count });
    file_of(&message, &claims)
}

/// A file of points near the most, right or with a wrong count.
fn long_file(random: &mut Random, turn: u64) -> Vec<u8> {
    let (message, claims) = right(random, turn, FEW_POINTS);
    let count = pick(random, &[MOST_POINTS, MOST_POINTS + 1, MOST_POINTS, MOST_POINTS - 1]);
    let many = as_many(&claims, count);
    file_of(&message, &if random.below(2) == 0 { wrong_count(random, many) } else { many })
}

/// The file with one byte of any value at any place.
fn other_byte(random: &mut Random, mut file: Vec<u8>) -> Vec<u8> {
    let at = place(random, &file);
    file[at] = if random.below(2) == 0 { random.bits() as u8 } else { pick(random, &[0, 1, 2, 3, 24, 25, 26, 255]) };
    file
}

/// The file with a tag or a length byte that is another.
fn other_head(random: &mut Random, mut file: Vec<u8>, message_length: usize) -> Vec<u8> {
    let points = (file.len() - HEAD - message_length) / POINT_FIELD;
    let first = match random.below(points as u64 + 1) as usize {
        0 => 0,
        point => HEAD + message_length + (point - 1) * POINT_FIELD,
    };
    file[first + random.below(HEAD as u64) as usize] = pick(random, &[0, 1, 2, 3, 24, 25, 26, 53, 101, 255]);
    file
}

/// The file with something behind it: bytes, a point, a message, or a point cut short.
fn extended(random: &mut Random, file: Vec<u8>, message: &[u8]) -> Vec<u8> {
    let claim = Claim { point: Point { component: 2, position: [0, 0] }, count: 0 };
    let mut more = match random.below(5) {
        0 => vec![0; 1 + random.below(30) as usize],
        1 => field(MESSAGE_TAG, message),
        2 => field(POINT_TAG, &random.bytes(POINT_LENGTH)),
        3 => {
            let length = 1 + random.below(60) as usize;
            random.bytes(length)
        }
        _ => claim_field(&claim),
    };
    if random.below(3) == 0 {
        let length = place(random, &more);
        more.truncate(length);
    }
    [file, more].concat()
}

/// Tagged fields of tags and lengths that are often those of a file.
fn any_fields(random: &mut Random, message: &[u8]) -> Vec<u8> {
    let mut file = Vec::new();
    for _ in 0..random.below(5) {
        let tag = pick(random, &[1, 1, 2, 2, 2, 0, 3, 255]);
        let length = pick(random, &[25, 25, 25, 24, 26, 0, 73, 280]);
        let contents = if tag == MESSAGE_TAG { message.to_vec() } else { random.bytes(length) };
        file.extend(field(tag, &contents));
    }
    file
}

/// A file of one of the kinds.
fn any_file(random: &mut Random, turn: u64) -> Vec<u8> {
    let kind = turn % FILES;
    let (message, claims) = right(random, turn / FILES, FEW_POINTS);
    let file = file_of(&message, &claims);
    match kind {
        0..=3 => file,
        4 | 5 => other_byte(random, file),
        6 => other_head(random, file, message.len()),
        7 => Damage::any(random, file.len()).done_to(&file),
        8 => Damage::Cut(place(random, &file)).done_to(&file),
        9 => extended(random, file, &message),
        10 | 11 => file_of(&message, &wrong_count(random, claims)),
        12 => {
            let once = wrong_count(random, claims);
            file_of(&message, &wrong_count(random, once))
        }
        13 | 14 => with_refused_claim(random, turn / FILES),
        15 | 16 => file_of(&of_kind(random, turn / FILES), &claims),
        17 if !claims.is_empty() => {
            let files = misshapen(&message, &claims);
            let at = place(random, &files);
            files[at].1.clone()
        }
        18 if turn / FILES % ONCE_IN == 0 => long_file(random, turn / FILES),
        18 => any_fields(random, &message),
        _ => {
            let message = of_kind(random, turn / FILES);
            let file = file_of(&message, &claims);
            other_head(random, file, message.len())
        }
    }
}

/// Compares one file that is checked.
pub fn compare_checked(random: &mut Random, turn: u64) -> Compared {
    let file = any_file(random, turn).into_boxed_slice();
    let (refusal, place) = check(&file).numbers();
    // SAFETY: the pointer and the length are those of a slice.
    let library = unsafe { ffi::tarnoklej_check_samples(file.as_ptr(), file.len()) };
    same(refusal, library, ffi::Checked { refusal, place }, || hex(&file))
}
