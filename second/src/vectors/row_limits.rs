//! Cases of rows: lengths, steps, limits and rooms, and every reason for a refusal alone and in pairs (document 02, A6).

use super::rows::{case, long_case, MOST_ROOM};
use super::shifts::{steep, word};
use super::Vector;
use crate::gridsamples::Grid;
use crate::rows::{Ask, MOST_PLACES};
use crate::samples::Sample;

/// All cases of a message number.
pub(super) fn cases(number: u16) -> Vec<Vector> {
    let mut cases = lengths(number);
    cases.extend(rooms(number));
    cases.extend(steps(number));
    cases.extend(limits(number));
    for component in 0..3 {
        cases.extend(refusals(number, component));
    }
    cases
}

/// A row of five places in the middle of a grid.
fn good(grid: &Grid, component: u8) -> Ask {
    Ask { component, start: grid.origin(), step: 100, count: 5 }
}

/// A signed number as a word for a name, the ends of 64 bits by name.
fn named(number: i64) -> String {
    match number {
        i64::MIN => "least".to_string(),
        i64::MAX => "greatest".to_string(),
        _ => word(number),
    }
}

/// Lengths of a row that are good and bad, with rooms that are long enough for the good ones and too short.
fn lengths(number: u16) -> Vec<Vector> {
    let grid = steep(number);
    let counts = [0, 1, 2, 39, 40, 41, 4_095, 4_096, 4_097, 4_098, 65_535, 65_536, 65_537];
    let more = [1 << 31, (1 << 31) + 1, 1 << 32, (1 << 32) + 1, 1 << 53, i64::MAX as usize - 1, i64::MAX as usize];
    let mut cases = Vec::new();
    for count in counts.into_iter().chain(more) {
        let ask = Ask { step: 1, count, ..good(&grid, 2) };
        cases.push(case(format!("{number}-count-{count}"), &grid.bytes(), ask, MOST_ROOM));
        cases.push(case(format!("{number}-no-room-for-{count}"), &grid.bytes(), ask, 0));
        cases.push(long_case(format!("{number}-count-{count}"), &grid.bytes(), ask, 4_200));
    }
    cases
}

/// Rooms around the count of places, all places behind it keeping their numbers.
fn rooms(number: u16) -> Vec<Vector> {
    let grid = steep(number);
    let mut cases = Vec::new();
    for count in [1, 2, 5, 39, 40] {
        for room in [0, count - 1, count, count + 1, MOST_ROOM].into_iter().filter(|&room| room <= MOST_ROOM) {
            let name = format!("{number}-room-{room}-for-{count}");
            let ask = Ask { count, ..good(&grid, 1) };
            cases.push(case(name, &grid.bytes(), ask, room));
        }
    }
    let mut names = std::collections::HashSet::new();
    cases.retain(|case| names.insert(case.name.clone()));
    for room in [0, 1, 4_094, 4_095, 4_096, 4_097, 4_200] {
        let ask = Ask { step: 2, count: MOST_PLACES, ..good(&grid, 0) };
        cases.push(long_case(format!("{number}-room-{room}"), &grid.bytes(), ask, room));
    }
    cases
}

/// Steps that are negative, none, past all limits, or come back to the start where 64 bits overflow.
fn steps(number: u16) -> Vec<Vector> {
    let grid = steep(number);
    let mut cases = Vec::new();
    for step in [i64::MIN, i64::MIN + 1, -12_960_000_000, -2, -1, 0, 1, i64::MAX - 1, i64::MAX] {
        for count in [1, 2, 3, 40] {
            let name = format!("{number}-step-{}-{count}", named(step));
            cases.push(case(name, &grid.bytes(), Ask { step, count, ..good(&grid, 2) }, MOST_ROOM));
        }
    }
    for (power, count) in [(62, 3), (62, 5), (61, 9), (60, 17), (59, 33), (53, 2_049), (52, 4_096)] {
        let ask = Ask { step: 1 << power, count, ..good(&grid, 0) };
        cases.push(long_case(format!("{number}-step-2-to-{power}-{count}"), &grid.bytes(), ask, 4_096));
        let most = Ask { start: [ask.start[0], i64::MAX], ..ask };
        cases.push(long_case(format!("{number}-step-2-to-{power}-{count}-far"), &grid.bytes(), most, 4_096));
    }
    cases
}

/// First and last places at the limits, one step past them, and at the ends of 64 bits.
fn limits(number: u16) -> Vec<Vector> {
    let [far_north, far_east] = if number == 1023 { [3_240_000_000i64, 6_480_000_000] } else { [1_000_000_000_000; 2] };
    let grid = steep(number);
    let [north, east] = grid.origin();
    let mut cases = Vec::new();
    let mut ask = |name: String, start: [i64; 2], step: i64, count: usize| {
        let ask = Ask { component: 1, start, step, count };
        cases.push(case(format!("{number}-limit-{name}"), &grid.bytes(), ask, MOST_ROOM));
    };
    let around = |far: i64| {
        let [most, least] = [("most", i64::MAX), ("least", i64::MIN)];
        [("far", far), ("past", far + 1), ("back", -far), ("behind", -far - 1), most, least]
    };
    for (word, value) in around(far_north) {
        ask(format!("north-{word}"), [value, east], 10, 3);
    }
    for (word, value) in around(far_east) {
        ask(format!("east-{word}-still"), [north, value], 0, 3);
        ask(format!("east-{word}-alone"), [north, value], 1, 1);
        ask(format!("east-{word}"), [north, value], 1, 3);
        ask(format!("east-{word}-half-way"), [north, value], far_east, 2);
        ask(format!("east-{word}-all-the-way"), [north, value], 2 * far_east, 2);
        ask(format!("east-{word}-greatest-step"), [north, value], i64::MAX, 2);
    }
    for past in -1..=1 {
        ask(format!("last-e{}", word(past)), [north, far_east - 20 + past], 10, 3);
        ask(format!("last-by-all-e{}", word(past)), [north, east], far_east - east + past, 2);
        ask(format!("in-between-e{}", word(past)), [north, -far_east + past], far_east, 3);
    }
    ask("all-ends".to_string(), [i64::MIN, i64::MAX], i64::MAX, 40);
    cases
}

/// A call with what can make it refused.
#[derive(Clone)]
struct Call {
    /// The grid of the message.
    grid: Grid,
    /// What is done to the bytes of the message.
    bytes: fn(&Grid) -> Vec<u8>,
    /// The row asked for.
    ask: Ask,
    /// The places of the buffer.
    room: usize,
}

/// A reason to be refused, by a word for a name.
type Reason = (&'static str, fn(&mut Call));

/// The data fields of indicator and method of a call's component.
fn switches(call: &Call) -> [u16; 2] {
    if call.ask.component == 2 {
        [191, 213]
    } else {
        [190, 212]
    }
}

/// The component of a call where it is one.
fn component(call: &Call) -> usize {
    usize::from(call.ask.component.min(2))
}

/// The grid's message with its last bit, which is a fill bit, set.
fn filled(grid: &Grid) -> Vec<u8> {
    let mut bytes = grid.bytes();
    *bytes.last_mut().expect("a message has bytes") |= 1;
    bytes
}

/// The reasons in the order of the refusals, POSITION by four of its reasons and ABSENT by two.
const REASONS: [Reason; 19] = [
    ("short", |call| call.bytes = |_| vec![0x3f]),
    ("number", |call| call.bytes = |grid| vec![0; grid.bytes().len()]),
    ("length", |call| call.bytes = |grid| [grid.bytes(), vec![0]].concat()),
    ("fill", |call| call.bytes = filled),
    ("range", |call| call.bytes = |_| Grid::k().set(192, 648_001).bytes()),
    ("kind", |call| call.bytes = |_| Sample::usual(1025).bytes()),
    ("component", |call| call.ask.component = 3),
    ("no-place", |call| call.ask.count = 0),
    ("many", |call| call.ask.count = MOST_PLACES + 1),
    ("negative", |call| call.ask.step = -1),
    ("past", |call| call.ask.step = 700_000_000_000),
    ("off", |call| call.grid = call.grid.set(switches(call)[0], 0)),
    ("method", |call| call.grid = call.grid.set(switches(call)[1], 2)),
    ("origin", |call| call.grid = call.grid.set(call.grid.origin_fields()[0], None)),
    ("spacing", |call| call.grid = call.grid.set(call.grid.spacing_fields()[0], 0)),
    ("outside", |call| call.ask.start[0] = 3_000_000_000),
    ("mean", |call| call.grid = call.grid.set(call.grid.mean_field(component(call)), None)),
    ("node", |call| call.grid = call.grid.set_node(component(call), 7, None)),
    ("room", |call| call.room = 2),
];

/// The case of a call.
fn case_of(name: String, call: &Call) -> Vector {
    case(name, &(call.bytes)(&call.grid), call.ask, call.room)
}

/// Each reason alone and every two of them, the later one being put in first, on a row that is answered.
fn refusals(number: u16, component: u8) -> Vec<Vector> {
    let grid = steep(number);
    let ask = good(&grid, component);
    let good = Call { grid, bytes: Grid::bytes, ask, room: 8 };
    let mut cases = vec![case_of(format!("{number}-c{component}-answered"), &good)];
    for (first, (first_word, make_first)) in REASONS.into_iter().enumerate() {
        let mut alone = good.clone();
        make_first(&mut alone);
        cases.push(case_of(format!("{number}-c{component}-{first_word}"), &alone));
        for (second_word, make_second) in &REASONS[first + 1..] {
            let mut both = good.clone();
            make_second(&mut both);
            make_first(&mut both);
            cases.push(case_of(format!("{number}-c{component}-{first_word}-{second_word}"), &both));
        }
    }
    cases
}
