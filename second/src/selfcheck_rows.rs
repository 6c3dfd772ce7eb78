//! The second program's own checks of rows of shifts (document 02, A6).

use crate::grid::{shifts, COMPONENTS};
use crate::gridsamples::{Grid, HALF_TURN};
use crate::random::Random;
use crate::refusal::{number_of, Refusal};
use crate::rows::{fill, shift_row, Ask, MOST_PLACES};
use crate::selfcheck::Group;
use crate::vectors::antimeridian::random_grid_across;
use crate::vectors::shifts::random_grid;

/// All groups of checks of rows.
pub fn groups() -> Vec<Group> {
    vec![worked(), as_the_calls(), whole_turn(), order_of_refusals(), first_place_refused(), buffers()]
}

/// Rows of grid K by numbers that document 01 prints.
fn worked() -> Group {
    let mut group = Group::new("rows through P1 to P9");
    let k = Grid::k();
    let row = |grid: &Grid, start: [i64; 2], step: i64, count: usize| {
        shift_row(&grid.bytes(), &Ask { component: 2, start, step, count }, count)
    };
    let six = k.at_node(6);
    group.equal("P2", row(&k, k.at_node(1), 0, 3), Ok(vec![469_210; 3]));
    group.equal("P5", row(&k, six, 180_000, 3), Ok(vec![469_260, 469_261, 469_261]));
    group.equal("P6", row(&k, six, 179_999, 2), Ok(vec![469_260, 469_260]));
    group.equal("P7", row(&k.negated(), six, 180_000, 3), Ok(vec![469_140, 469_139, 469_139]));
    let absent = k.set_node(2, 7, None);
    group.equal("P8", row(&absent, six, 1, 1), Ok(vec![469_260]));
    group.equal("P9", row(&absent, six, 1, 2), Err(Refusal::Absent));
    let nodes = [50, 60, 70, 80].map(|counts| 469_200 + counts);
    group.equal("nodes 5 to 8", row(&k, k.at_node(5), 3_600_000, 4), Ok(nodes.to_vec()));
    group.equal("past node 8", row(&k, k.at_node(5), 3_600_000, 5), Err(Refusal::Outside));
    group
}

/// The call that is made at each place: the counts up to the first place refused, or its number.
fn by_calls(bytes: &[u8], ask: &Ask) -> Result<Vec<i64>, Refusal> {
    let at = |place: usize| shifts(bytes, ask.start[0], ask.start[1] + place as i64 * ask.step);
    (0..ask.count).map(|place| at(place)[usize::from(ask.component)].count).collect()
}

/// A row is the component's part of the call at each place, where no place is past the limits.
fn as_the_calls() -> Group {
    let mut group = Group::new("rows as the calls at each place");
    let mut random = Random::new(27);
    for turn in 0..900 {
        let grid = match turn % 3 {
            0 => random_grid(&mut random, 1023),
            1 => random_grid(&mut random, 1024),
            _ => random_grid_across(&mut random),
        };
        let [high, wide] = grid.spacing();
        let steps = [random.within(-3 * high / 2, 3 * high / 2), random.within(-3 * wide / 2, 0)];
        let start = grid.moved(grid.origin(), steps);
        let component = (turn / 3 % COMPONENTS) as u8;
        let count = random.within(1, 60) as usize;
        let ask = Ask { component, start, step: random.within(0, 3 * wide / count as i64), count };
        let last = start[1] + (count as i64 - 1) * ask.step;
        let past = grid.ellipsoidal() && last > HALF_TURN;
        let expected = if past { Err(Refusal::Position) } else { by_calls(&grid.bytes(), &ask) };
        group.equal("row", shift_row(&grid.bytes(), &ask, count), expected);
    }
    group
}

/// A step of a whole turn from -180 to +180 degrees gives the same count twice.
fn whole_turn() -> Group {
    let mut group = Group::new("a step of a whole turn");
    let mut random = Random::new(28);
    for _ in 0..300 {
        let grid = random_grid_across(&mut random);
        let high = grid.spacing()[0];
        let north = grid.origin()[0] + random.within(-2 * high, 2 * high);
        for component in 0..3 {
            let ask = |step: i64, count: usize| Ask { component, start: [north, -HALF_TURN], step, count };
            let once = shift_row(&grid.bytes(), &ask(0, 1), 1);
            let twice = shift_row(&grid.bytes(), &ask(2 * HALF_TURN, 2), 2);
            group.equal("twice", twice, once.map(|row| row.repeat(2)));
            let thrice = shift_row(&grid.bytes(), &ask(2 * HALF_TURN, 3), 3);
            group.equal("thrice", thrice, Err(Refusal::Position));
        }
    }
    group
}

/// Each refusal before the next: the message, KIND, COMPONENT, POSITION, 10 to 15 and ROOM.
fn order_of_refusals() -> Group {
    let mut group = Group::new("the order of a row's refusals");
    let grid = Grid::of(1023, [0, 0], [6, 6], [1, 2, 3], |_, _| 0).set_node(0, 7, None);
    let off = grid.set(190, 0);
    let ask = |component: u8, east: i64, step: i64, count: usize| Ask { component, start: [0, east], step, count };
    let mut at = |name: &str, bytes: &[u8], ask: Ask, room: usize, expected: u8| {
        group.equal(name, number_of(&shift_row(bytes, &ask, room)), expected);
    };
    at("short", &[], ask(3, 0, -1, 0), 0, 1);
    at("kind", &crate::samples::Sample::zeros(1025).bytes(), ask(3, 0, -1, 0), 0, 7);
    at("component", &off.bytes(), ask(3, 0, -1, 0), 0, 8);
    at("no place", &off.bytes(), ask(0, 0, 1, 0), 0, 9);
    at("4,097 places", &off.bytes(), ask(0, 0, 0, MOST_PLACES + 1), 0, 9);
    at("negative step", &off.bytes(), ask(0, 0, -1, 1), 0, 9);
    at("place past the limit", &off.bytes(), ask(0, 0, HALF_TURN, 3), 0, 9);
    at("greatest step", &off.bytes(), ask(0, 0, i64::MAX, 2), 0, 9);
    at("off", &off.bytes(), ask(0, 0, HALF_TURN, 2), 0, 10);
    at("outside", &grid.bytes(), ask(1, 0, HALF_TURN, 2), 0, 14);
    at("absent", &grid.bytes(), ask(0, 0, 0, 2), 0, 15);
    at("room", &grid.bytes(), ask(1, 0, 0, 2), 1, 6);
    at("answered", &grid.bytes(), ask(1, 0, 0, 2), 2, 0);
    at("greatest step, one place", &grid.bytes(), ask(1, 0, i64::MAX, 1), 1, 0);
    at("4,096 places", &grid.bytes(), ask(1, 0, 1, MOST_PLACES), MOST_PLACES, 0);
    group
}

/// Of OUTSIDE and ABSENT the one of the first place refused is given, not the smaller number.
fn first_place_refused() -> Group {
    let mut group = Group::new("the first place refused of a row");
    let grid = Grid::of(1024, [0, 10], [6, 6], [1, 2, 3], |_, _| 0).set_node(2, 11, None);
    let [north, east] = grid.at_node(10);
    let mut at = |name: &str, east: i64, step: i64, count: usize, expected: u8| {
        let ask = Ask { component: 2, start: [north, east], step, count };
        group.equal(name, number_of(&shift_row(&grid.bytes(), &ask, count)), expected);
    };
    at("without weight", east, 1, 1, 0);
    at("absent and then outside", east, 60_000, 9, 15);
    at("outside and then absent", east - 60_001, 60_002, 9, 14);
    at("over the absent node", east, 120_000, 2, 0);
    group
}

/// With an answer the places behind the row keep their numbers, and with a refusal all do.
fn buffers() -> Group {
    let mut group = Group::new("the buffer of a row");
    let k = Grid::k();
    let ask = Ask { component: 2, start: k.at_node(5), step: 3_600_000, count: 3 };
    let mut row = [-1; 5];
    group.equal("done", fill(&k.bytes(), &ask, &mut row), 0);
    group.equal("row", row, [469_250, 469_260, 469_270, -1, -1]);
    group.equal("outside", fill(&k.bytes(), &Ask { count: 5, ..ask }, &mut row), 14);
    group.equal("room", fill(&k.bytes(), &ask, &mut row[..2]), 6);
    group.equal("kept", row, [469_250, 469_260, 469_270, -1, -1]);
    group
}
