//! Compares reports over many points: many short lists and few long ones.

use crate::messages::{self, pick};
use crate::shifting::{any_grid, any_grid_across, any_position};
use crate::{same, same_parts, Compared};
use second::damage::Damage;
use second::gridsamples::Grid;
use second::hex::hex;
use second::random::Random;
use second::refusal::{number_of, Refusal};
use second::report::{report_points, Point, Report, MOST_POINTS, REFUSALS};
use tarnoklej::ffi;

/// How many kinds of lists there are, and how often a list of 10,000 or 10,001 points comes.
const LISTS: u64 = 8;
const LONG_LIST: u64 = 2_000;
/// The points of most lists.
const FEW_POINTS: u64 = 24;

/// A message, a component and the two lists of positions.
struct Ask {
    message: Box<[u8]>,
    component: u8,
    north: Box<[i64]>,
    east: Box<[i64]>,
}

/// A grid of one of the kinds, one in four across 180 degrees.
fn grid_of(random: &mut Random, turn: u64) -> Grid {
    match turn % 4 {
        3 => any_grid_across(random, turn / 4),
        _ => any_grid(random, turn / 4),
    }
}

/// A point inside the grid or on its edges, where it has a spacing.
fn inside(random: &mut Random, grid: &Grid) -> Point {
    let steps = grid.spacing().map(|spacing| random.within(-3 * spacing / 2, 3 * spacing / 2));
    grid.moved(grid.origin(), steps)
}

/// A point a few steps from another.
fn beside(random: &mut Random, [north, east]: Point) -> Point {
    [north, east].map(|at| at.saturating_add(random.within(-2, 2)))
}

/// A list of one of the kinds: anywhere, inside, around one point, one or few points over and over, all outside, one point
/// among many that are refused, or none.
fn any_list(random: &mut Random, grid: &Grid, kind: u64, count: usize) -> Vec<Point> {
    let far = grid.moved(grid.origin(), [2 * grid.spacing()[0] + 1, 0]);
    let few = [0, 1, 2].map(|_| any_position(random, grid));
    let middle = any_position(random, grid);
    let lone = random.below(count as u64 + 1) as usize;
    let point = |random: &mut Random, place: usize| match kind % LISTS {
        0 | 1 => any_position(random, grid),
        2 => inside(random, grid),
        3 => beside(random, middle),
        4 => few[0],
        5 => pick(random, &few),
        6 if place == lone => inside(random, grid),
        _ => beside(random, far),
    };
    (0..count).map(|place| point(random, place)).collect()
}

/// The points of a list, mostly few, none now and then; a long list has 10,000 or 10,001.
fn any_count(random: &mut Random, turn: u64) -> usize {
    match turn % LONG_LIST {
        0 => MOST_POINTS,
        1 => MOST_POINTS + 1,
        _ => match random.below(20) {
            0 => 0,
            1 => random.below(10 * FEW_POINTS) as usize,
            _ => 1 + random.below(FEW_POINTS) as usize,
        },
    }
}

/// The message of a grid, one in four times a damaged or truncated one, or any message.
fn message_of(random: &mut Random, grid: &Grid) -> Vec<u8> {
    match random.below(8) {
        6 => {
            let bytes = grid.bytes();
            Damage::any(random, bytes.len()).done_to(&bytes)
        }
        7 => {
            let kind = random.below(messages::KINDS);
            messages::of_kind(random, kind)
        }
        _ => grid.bytes(),
    }
}

/// A component, one in twelve times 3 or any number.
fn any_component(random: &mut Random) -> u8 {
    match random.below(24) {
        0 => 3,
        1 => random.bits() as u8,
        _ => random.below(3) as u8,
    }
}

/// A list of points as the two buffers of the call.
fn ask(message: Vec<u8>, component: u8, points: &[Point]) -> Ask {
    let [north, east] = [0, 1].map(|axis| points.iter().map(|point| point[axis]).collect());
    Ask { message: message.into(), component, north, east }
}

/// The buffers with one of them cut or extended.
fn other_count(random: &mut Random, ask: Ask) -> Ask {
    let resized = |random: &mut Random, list: Box<[i64]>| {
        let mut list = list.into_vec();
        let others = [list.len().saturating_sub(1), list.len() + 1, 0, MOST_POINTS];
        list.resize(pick(random, &others), 0);
        list.into_boxed_slice()
    };
    match random.below(2) {
        0 => Ask { north: resized(random, ask.north), ..ask },
        _ => Ask { east: resized(random, ask.east), ..ask },
    }
}

/// The second program's answer as the library's struct.
fn answer_of(answer: &Result<Report, Refusal>) -> ffi::Report {
    let Report { answered, refused, smallest, greatest, smallest_place, greatest_place, sum } =
        answer.unwrap_or_default();
    let refusal = number_of(answer);
    ffi::Report { refusal, answered, refused, smallest, greatest, smallest_place, greatest_place, sum }
}

/// Both answers to a report, the library's first.
fn answers(ask: &Ask) -> (ffi::Report, ffi::Report) {
    let Ask { message, component, north, east } = ask;
    let second = answer_of(&report_points(message, *component, north, east));
    // SAFETY: the pointers and lengths are those of slices.
    let library = unsafe {
        ffi::tarnoklej_report_points(
            message.as_ptr(),
            message.len(),
            *component,
            north.as_ptr(),
            north.len(),
            east.as_ptr(),
            east.len(),
        )
    };
    (library, second)
}

/// What a report was asked for, the first of its points.
fn words(ask: &Ask) -> String {
    let shown = |list: &[i64]| format!("{} {:?}", list.len(), &list[..list.len().min(300)]);
    format!("{} component {} north {} east {}", hex(&ask.message), ask.component, shown(&ask.north), shown(&ask.east))
}

/// Compares one report, one in twelve with counts that may differ.
pub fn compare_report(random: &mut Random, turn: u64) -> Compared {
    let grid = grid_of(random, turn);
    let count = any_count(random, turn);
    let points = any_list(random, &grid, turn / LISTS, count);
    let message = message_of(random, &grid);
    let component = any_component(random);
    let mut ask = ask(message, component, &points);
    if random.below(12) == 0 {
        ask = other_count(random, ask);
    }
    let (library, second) = answers(&ask);
    same(second.refusal, library, second, || words(&ask))
}

/// Compares one report of a few points, of which each one's number is counted.
pub fn compare_points(random: &mut Random, turn: u64) -> Compared {
    let grid = grid_of(random, turn);
    let count = 2 + random.below(6) as usize;
    let kind = pick(random, &[0, 0, 2, 3, 6]);
    let points = any_list(random, &grid, kind, count);
    let ask = ask(message_of(random, &grid), random.below(3) as u8, &points);
    let (library, second) = answers(&ask);
    same_parts(&numbers_of(&second), library, second, || words(&ask))
}

/// The number of each point, 0 for those answered, from how often each stands in a report.
fn numbers_of(report: &ffi::Report) -> Vec<u8> {
    let refused = (1..=REFUSALS as u8).zip(report.refused);
    let times = [(0, report.answered)].into_iter().chain(refused);
    times.flat_map(|(number, times)| vec![number; times as usize]).collect()
}
