//! Cases of the shifts at a position.

use super::{antimeridian, parts, Call as Exported, Case, Vector};
use crate::grid::{shifts, Answer, Part, HEIGHT};
use crate::gridsamples::Grid;
use crate::hex::hex;
use crate::message::read;
use crate::random::Random;
use crate::refusal::number_of;
use crate::samples::Sample;
use crate::services::services;
use std::collections::HashSet;

/// All cases of the shifts from a message.
pub fn cases() -> Vec<Vector> {
    let mut cases = on_messages(worked());
    cases.extend(nodes("k", &Grid::k()));
    cases.extend(middles("k", &Grid::k()));
    for (name, grid) in named_grids() {
        cases.extend(nodes(&name, &grid));
        cases.extend(middles(&name, &grid));
    }
    cases.extend(lines_and_corners("k", &Grid::k()));
    cases.extend(lines_and_corners("steep", &steep(1023)));
    cases.extend(lines_and_corners("plane", &steep(1024)));
    for number in [1023, 1024] {
        cases.extend(halves(number));
        cases.extend(on_messages(absent_nodes(number)));
        cases.extend(on_messages(absent_means(number)));
        cases.extend(on_messages(parts::calls(number)));
        cases.extend(mean_factors(number));
        cases.extend(on_messages(pairs(number)));
        cases.extend(limits(number));
        cases.extend(widest(number));
        cases.extend(random_grids(number));
    }
    cases.extend(other_messages());
    cases.extend(service_grids());
    cases.extend(antimeridian::cases());
    cases
}

/// A vector of the shifts on any bytes.
pub(super) fn case(name: String, bytes: &[u8], position: [i64; 2]) -> Vector {
    Vector { name, call: Exported::Shift { bytes: bytes.to_vec(), position } }
}

/// The case of what only the second answer shows of the shifts: its kind and value.
pub fn answer_case(name: &str, bytes: &[u8], [north, east]: [i64; 2]) -> Case {
    let answers = shifts(bytes, north, east).map(|part| answer_text(part.answer));
    let call = format!("answer {} {north} {east}", hex(bytes));
    Case { name: name.to_string(), call, answer: answers.join(" ") }
}

/// The kind of an answer and its value, the bits of the f64 or the refusal number.
fn answer_text(answer: Answer) -> String {
    match answer {
        Answer::Seconds(value) => format!("seconds {}", value.to_bits()),
        Answer::Metres(value) => format!("metres {}", value.to_bits()),
        Answer::Refused(number) => format!("refused {number}"),
    }
}

/// What is printed of three parts.
pub(super) fn parts_text(parts: &[Part]) -> String {
    parts.iter().map(part_text).collect::<Vec<String>>().join(" ")
}

/// What is printed of a part: refusal and count, the answer as the add-on receives it, and the bits of the float.
fn part_text(part: &Part) -> String {
    let answer = answer_text(part.answer);
    format!("{} {} {answer} {}", number_of(&part.count), part.count.unwrap_or(0), part.float().to_bits())
}

/// A signed number as a word for a name.
pub(super) fn word(number: i64) -> String {
    number.to_string().replace('-', "m")
}

/// A call: a grid and a position.
#[derive(Clone)]
pub(super) struct Call {
    /// The grid of the message or the record.
    pub grid: Grid,
    /// The position asked for.
    pub position: [i64; 2],
}

/// The cases of named calls on messages.
fn on_messages(calls: Vec<(String, Call)>) -> Vec<Vector> {
    calls.into_iter().map(|(name, call)| case(name, &call.grid.bytes(), call.position)).collect()
}

/// P1 to P11.
pub(super) fn worked() -> Vec<(String, Call)> {
    let k = Grid::k();
    let middle = k.origin();
    let six = k.at_node(6);
    let negated = k.negated();
    let absent = k.set_node(2, 7, None);
    let east_of = |[north, east]: [i64; 2], steps: i64| [north, east + steps];
    let north_of = |[north, east]: [i64; 2], steps: i64| [north + steps, east];
    let call = |name: &str, grid: &Grid, position: [i64; 2]| (name.to_string(), Call { grid: grid.clone(), position });
    vec![
        call("p1", &k, middle),
        call("p2", &k, k.at_node(1)),
        call("p3", &k, north_of(k.at_node(1), 1)),
        call("p4", &k, k.at_node(16)),
        call("p5", &k, east_of(six, 180_000)),
        call("p6", &k, east_of(six, 179_999)),
        call("p7", &negated, east_of(six, 180_000)),
        call("p7-one-step-less", &negated, east_of(six, 179_999)),
        call("p7-one-step-more", &negated, east_of(six, 180_001)),
        call("p8", &absent, six),
        call("p9", &absent, east_of(six, 1)),
        call("p10", &k, middle),
        call("p11-north", &k.set(194, 0), middle),
        call("p11-east", &k.set(195, 0), middle),
        call("p11-both", &k.set(194, 0).set(195, 0), middle),
    ]
}

/// A grid with nodes at both ends of their range and small spacings that differ.
pub(super) fn steep(number: u16) -> Grid {
    Grid::of(number, [-700, 400], [6, 9], [-3, 5, -7], |component, node| match (node + component) % 4 {
        0 => 255,
        1 => -255,
        2 => node as i64 * 7 - 60,
        _ => 31 - node as i64 * 5,
    })
}

/// Grids whose sixteen nodes and nine middles are asked for.
pub(super) fn named_grids() -> Vec<(String, Grid)> {
    let mut random = Random::new(11);
    let mut grids = Vec::new();
    for number in [1023, 1024] {
        grids.push((format!("{number}-steep"), steep(number)));
        let mixed = Grid::of(number, [1_234, 567], [4_095, 1], [100, -100, 16_383], |_, _| random.within(-255, 255));
        grids.push((format!("{number}-mixed"), mixed));
    }
    grids
}

/// The sixteen nodes, whose shift is mean and node alone.
pub(super) fn nodes(name: &str, grid: &Grid) -> Vec<Vector> {
    (1..=16).map(|node| case(format!("{name}-node-{node}"), &grid.bytes(), grid.at_node(node))).collect()
}

/// The middles of the nine cells, row by row from the north.
pub(super) fn middles(name: &str, grid: &Grid) -> Vec<Vector> {
    let [high, wide] = grid.spacing();
    let middle = |cell: usize| grid.moved(grid.at_node(cell / 3 * 4 + cell % 3 + 1), [-high / 2, wide / 2]);
    (0..9).map(|cell| case(format!("{name}-cell-{}", cell + 1), &grid.bytes(), middle(cell))).collect()
}

/// Every crossing of a row and a column by one step on either side, and the middles of the edges.
pub(super) fn lines_and_corners(name: &str, grid: &Grid) -> Vec<Vector> {
    let [high, wide] = grid.spacing();
    let mut cases = Vec::new();
    for node in 1..=16 {
        let mut near = |name: String, steps: [i64; 2]| {
            cases.push(case(name, &grid.bytes(), grid.moved(grid.at_node(node), steps)));
        };
        for (y, x) in (-1..=1).flat_map(|y| (-1..=1).map(move |x| (y, x))) {
            near(format!("{name}-near-{node}-n{}-e{}", word(y), word(x)), [y, x]);
        }
        for step in -1..=1 {
            near(format!("{name}-row-{node}-n{}", word(step)), [step, wide / 3]);
            near(format!("{name}-column-{node}-e{}", word(step)), [-high / 3, step]);
        }
    }
    cases
}

/// Positions whose exact mean ends in a half, and one step on either side, with nodes of both signs.
fn halves(number: u16) -> Vec<Vector> {
    let mut cases = Vec::new();
    for (word, sign) in [("plus", 1), ("minus", -1)] {
        let grid = Grid::of(number, [100, 200], [12, 12], [0, 0, 0], |_, node| sign * (node as i64 % 4));
        let wide = grid.spacing()[1];
        let of_a_cell: &[i64] = if number == 1023 { &[6, 20] } else { &[20] };
        for &parts in of_a_cell {
            for part in (1..parts).step_by(2) {
                for step in -1..=1 {
                    let [north, east] = grid.at_node(5);
                    let at = [north, east + wide * part / parts + step];
                    let name = format!("{number}-half-{word}-{part}-of-{parts}-e{}", self::word(step));
                    cases.push(case(name, &grid.bytes(), at));
                }
            }
        }
    }
    cases.extend(halves_across_zero(number));
    cases
}

/// Positions between a negative and a positive node, where the exact mean passes zero.
fn halves_across_zero(number: u16) -> Vec<Vector> {
    let grid = Grid::of(number, [0, 1_000], [12, 12], [0, 0, 0], |_, node| if node % 2 == 0 { 1 } else { -1 });
    let wide = grid.spacing()[1];
    let mut cases = Vec::new();
    for part in 0..=20 {
        for step in -1..=1 {
            let [north, east] = grid.at_node(9);
            let at = [north, east + wide * part / 20 + step];
            cases.push(case(format!("{number}-zero-{part}-e{}", word(step)), &grid.bytes(), at));
        }
    }
    cases
}

/// Each node of one component not available, asked for at the node, beside it, and at its neighbours.
pub(super) fn absent_nodes(number: u16) -> Vec<(String, Call)> {
    let grid = Grid::of(number, [100, 200], [6, 8], [1, 2, 3], |component, node| 10 * component as i64 - node as i64);
    let [high, wide] = grid.spacing();
    let around = [
        ("at", [0, 0]),
        ("north", [1, 0]),
        ("south", [-1, 0]),
        ("east", [0, 1]),
        ("west", [0, -1]),
        ("next-north", [high, 0]),
        ("next-south", [-high, 0]),
        ("next-east", [0, wide]),
        ("next-west", [0, -wide]),
        ("before-north", [high - 1, 0]),
        ("before-east", [0, wide - 1]),
        ("inside", [1 - high, wide - 1]),
        ("edge", [-high, wide / 2]),
    ];
    let mut calls = Vec::new();
    for node in 1..=16 {
        let absent = grid.set_node(node % 3, node, None);
        let [north, east] = grid.at_node(node);
        for (word, [y, x]) in around {
            let position = [north + y, east + x];
            calls.push((format!("{number}-absent-{node}-{word}"), Call { grid: absent.clone(), position }));
        }
    }
    calls
}

/// Each mean not available.
pub(super) fn absent_means(number: u16) -> Vec<(String, Call)> {
    let good = good_call(number);
    let call = |mean: usize| Call { grid: good.grid.set(good.grid.mean_field(mean), None), ..good.clone() };
    (0..3).map(|mean| (format!("{number}-absent-mean-{mean}"), call(mean))).collect()
}

/// Each mean at its ends and at plus and minus one, nodes being zero, and all nodes so, so that the factors show.
fn mean_factors(number: u16) -> Vec<Vector> {
    let grid = Grid::of(number, [0, 500], [10, 10], [0, 0, 0], |_, _| 0);
    let mut cases = Vec::new();
    for component in 0..3 {
        let df = grid.mean_field(component);
        let most = crate::fields::by_df(df).greatest();
        for mean in [-most, -1, 0, 1, most] {
            let bytes = grid.set(df, mean).bytes();
            cases.push(case(format!("{number}-mean-df{df}-{}", word(mean)), &bytes, grid.origin()));
        }
    }
    for node in [-255, -1, 1, 255] {
        let bytes = grid.set_nodes(|_, _| node).bytes();
        cases.push(case(format!("{number}-nodes-{}", word(node)), &bytes, grid.origin()));
    }
    cases
}

/// Gives a component of a call one more reason to be refused, by the refusal's number.
fn with_reason(mut call: Call, component: usize, refusal: u8) -> Call {
    let vertical = component == HEIGHT;
    let far = if call.grid.ellipsoidal() { 3_240_000_000 } else { 1_000_000_000_000 };
    match refusal {
        9 => call.position[0] = far + 1,
        10 => call.grid = call.grid.set(if vertical { 191 } else { 190 }, 0),
        11 => call.grid = call.grid.set(if vertical { 213 } else { 212 }, 1),
        12 => call.grid = call.grid.set(call.grid.origin_fields()[0], None),
        13 => call.grid = call.grid.set(call.grid.spacing_fields()[1], 0),
        14 => call.position[1] = far,
        _ => call.grid = call.grid.set(call.grid.mean_field(component), None),
    }
    call
}

/// A call that is answered in all parts.
pub(super) fn good_call(number: u16) -> Call {
    let grid = steep(number);
    Call { position: grid.origin(), grid }
}

/// The refusals of each component, and single fields of the grid.
pub(super) fn pairs(number: u16) -> Vec<(String, Call)> {
    let good = good_call(number);
    let mut calls = refusals(&number.to_string(), &good);
    calls.extend(single_fields(number, &good));
    calls
}

/// A call that is answered, and the reasons of refusals 9 to 15 for each component, alone and in pairs, the later first.
fn refusals(name: &str, good: &Call) -> Vec<(String, Call)> {
    let mut calls = vec![(format!("{name}-answered"), good.clone())];
    for component in 0..3 {
        for first in 9..=15 {
            let call = with_reason(good.clone(), component, first);
            calls.push((format!("{name}-refusal-{first}-c{component}"), call));
            for second in first + 1..=15 {
                let call = with_reason(with_reason(good.clone(), component, second), component, first);
                calls.push((format!("{name}-refusals-{first}-{second}-c{component}"), call));
            }
        }
    }
    without_repeats(calls)
}

/// The calls without those whose message and position stood before.
fn without_repeats(calls: Vec<(String, Call)>) -> Vec<(String, Call)> {
    let mut seen = HashSet::new();
    calls.into_iter().filter(|(_, call)| seen.insert((call.grid.bytes(), call.position))).collect()
}

/// The cases of a message's refusals 9 to 15, alone and in pairs.
pub(super) fn refusal_cases(name: &str, good: &Call) -> Vec<Vector> {
    on_messages(refusals(name, good))
}

/// Indicators, methods, origins and spacings one by one.
fn single_fields(number: u16, good: &Call) -> Vec<(String, Call)> {
    let [north, east] = good.grid.origin_fields();
    let [high, wide] = good.grid.spacing_fields();
    let last_east = if number == 1023 { None } else { Some(67_108_863) };
    let edits = [
        (190, Some(0)),
        (191, Some(0)),
        (212, Some(1)),
        (212, Some(2)),
        (212, Some(3)),
        (213, Some(1)),
        (213, Some(2)),
        (213, Some(3)),
        (north, None),
        (east, last_east),
        (high, Some(0)),
        (wide, Some(0)),
        (216, Some(7)),
        (217, Some(7)),
        (51, Some(65_535)),
        (147, Some(255)),
    ];
    edits
        .iter()
        .map(|&(df, reading)| {
            let to = reading.map_or("none".to_string(), word);
            (format!("{number}-df{df}-{to}"), Call { grid: good.grid.set(df, reading), ..good.clone() })
        })
        .collect()
}

/// Positions at the limits and at the ends of 64 bits, and grids that reach a limit.
fn limits(number: u16) -> Vec<Vector> {
    let bytes = steep(number).bytes();
    let [far_north, far_east] = if number == 1023 { [3_240_000_000i64, 6_480_000_000] } else { [1_000_000_000_000; 2] };
    let mut cases = Vec::new();
    for (axis, far) in [("north", far_north), ("east", far_east)] {
        for value in [far - 1, far, far + 1, -far + 1, -far, -far - 1, i64::MIN, i64::MIN + 1, i64::MAX] {
            let inside = steep(number).origin();
            let at = if axis == "north" { [value, inside[1]] } else { [inside[0], value] };
            let text = match value {
                i64::MIN => "least".to_string(),
                i64::MAX => "greatest".to_string(),
                _ if value == i64::MIN + 1 => "least-and-one".to_string(),
                _ => word(value),
            };
            cases.push(case(format!("{number}-limit-{axis}-{text}"), &bytes, at));
        }
    }
    cases.push(case(format!("{number}-limit-both-ends"), &bytes, [i64::MIN, i64::MAX]));
    cases.extend(grids_at_limits(number, far_north, far_east));
    cases
}

/// Grids whose origin is at the end of its range, asked for at the limits and around.
fn grids_at_limits(number: u16, far_north: i64, far_east: i64) -> Vec<Vector> {
    let origins: [[i64; 2]; 4] = if number == 1023 {
        [[648_000, 1_296_000], [-648_000, -1_296_000], [648_000, -1_296_000], [0, 0]]
    } else {
        [[16_777_215, 67_108_863], [-16_777_215, 0], [16_777_215, 0], [0, 0]]
    };
    let mut cases = Vec::new();
    for (i, origin) in origins.into_iter().enumerate() {
        let grid = Grid::of(number, origin, [4_095, 4_095], [1, 2, 3], |component, node| {
            node as i64 * if component == 1 { -9 } else { 11 }
        });
        let [north, east] = grid.origin();
        let [high, wide] = grid.spacing();
        let at = [
            ("origin", [north, east]),
            ("limit", [north.clamp(-far_north, far_north), east.clamp(-far_east, far_east)]),
            ("inward", [north - north.signum() * high, east - east.signum() * wide]),
            ("outward-north", [north + north.signum(), east]),
            ("outward-east", [north, east + east.signum()]),
            ("edge", [north - north.signum() * (3 * high / 2), east - east.signum() * (3 * wide / 2)]),
            ("past-edge", [north - north.signum() * (3 * high / 2 + 1), east]),
            ("other-side", [north, -east]),
        ];
        for (word, position) in at {
            cases.push(case(format!("{number}-end-{i}-{word}"), &grid.bytes(), position));
        }
    }
    cases
}

/// The widest spacings with nodes at the ends of their range, where the sums are greatest.
fn widest(number: u16) -> Vec<Vector> {
    let mut random = Random::new(12 + number as u64);
    let mut cases = Vec::new();
    for (word, node) in [("max", 255), ("min", -255)] {
        let grid = Grid::of(number, [1, 2], [4_095, 4_095], [0, 0, 0], |_, _| node);
        for i in 0..12 {
            let position = random_position(&mut random, &grid);
            cases.push(case(format!("{number}-widest-{word}-{i}"), &grid.bytes(), position));
        }
    }
    let mixed = Grid::of(number, [1, 2], [4_095, 4_095], [0, 0, 0], |_, node| if node % 3 == 0 { 255 } else { -255 });
    for i in 0..24 {
        let position = random_position(&mut random, &mixed);
        cases.push(case(format!("{number}-widest-mixed-{i}"), &mixed.bytes(), position));
    }
    cases
}

/// A position inside a grid or a little outside.
pub fn random_position(random: &mut Random, grid: &Grid) -> [i64; 2] {
    let [high, wide] = grid.spacing();
    let off = |random: &mut Random, spacing: i64| match random.below(6) {
        0 => spacing / 2 * random.within(-3, 3),
        1 => spacing / 2 * random.within(-3, 3) + random.within(-2, 2),
        _ => random.within(-spacing * 3 / 2, spacing * 3 / 2),
    };
    let steps = [off(random, high), off(random, wide)];
    grid.moved(grid.origin(), steps)
}

/// Random grids, some with nodes not available, at random positions.
fn random_grids(number: u16) -> Vec<Vector> {
    let mut random = Random::new(13 + number as u64);
    let mut cases = Vec::new();
    for i in 0..70 {
        let grid = random_grid(&mut random, number);
        for place in 1..=3 {
            let position = random_position(&mut random, &grid);
            cases.push(case(format!("{number}-grid-{i}-at-{place}"), &grid.bytes(), position));
        }
    }
    cases
}

/// A grid of random origin, spacings, means and nodes, one in four with nodes not available.
pub fn random_grid(random: &mut Random, number: u16) -> Grid {
    let origin = if number == 1023 {
        [random.within(-640_000, 640_000), random.within(-1_280_000, 1_280_000)]
    } else {
        [random.within(-16_000_000, 16_000_000), random.within(0, 67_000_000)]
    };
    let spacing = [random.within(1, 4_095), random.within(1, 4_095)];
    let mean_most = if number == 1023 { 127 } else { 511 };
    let mean =
        [random.within(-mean_most, mean_most), random.within(-mean_most, mean_most), random.within(-16_383, 16_383)];
    let gaps = random.below(4) == 0;
    Grid::of(number, origin, spacing, mean, |_, _| {
        if gaps && random.below(6) == 0 {
            None
        } else {
            Some(random.within(-255, 255))
        }
    })
}

/// Messages of other numbers, refused messages, and both together with bad positions.
fn other_messages() -> Vec<Vector> {
    let mut cases = Vec::new();
    for number in [1021, 1022, 1025, 1026, 1027] {
        let bytes = Sample::usual(number).bytes();
        cases.push(case(format!("shift-kind-{number}"), &bytes, [0, 0]));
        cases.push(case(format!("shift-kind-{number}-position"), &bytes, [i64::MAX, i64::MIN]));
    }
    let grid = steep(1023);
    let sound = grid.bytes();
    let mut filled = sound.clone();
    filled[72] |= 1;
    let refused: [(&str, Vec<u8>); 6] = [
        ("short", vec![]),
        ("number", vec![0; 73]),
        ("length", sound[..72].to_vec()),
        ("long", [&sound[..], &[0]].concat()),
        ("fill", filled),
        ("range", grid.set(192, 648_001).bytes()),
    ];
    for (word, bytes) in refused {
        cases.push(case(format!("shift-{word}"), &bytes, grid.origin()));
        cases.push(case(format!("shift-{word}-position"), &bytes, [i64::MIN, 0]));
    }
    cases
}

/// The grids of the made-up services, sound and damaged, at sixteen nodes, the middle and random positions.
fn service_grids() -> Vec<Vector> {
    let mut random = Random::new(14);
    let mut cases = Vec::new();
    for service in services() {
        let letter = &service.folder[..1];
        let files = service.files.iter().filter(|f| f.name.starts_with("1023") || f.name.starts_with("1024"));
        let mut middle = [0, 0];
        for file in files {
            if file.name.len() == 4 {
                let sound = grid_of(&file.bytes);
                middle = sound.origin();
                cases.extend(service_positions(letter, &sound, &mut random));
            }
            cases.push(case(format!("service-{letter}-{}-middle", file.name), &file.bytes, middle));
        }
    }
    cases
}

/// The grid of a sound grid message.
fn grid_of(bytes: &[u8]) -> Grid {
    let message = read(bytes).expect("a sound message");
    let dfs = message.fields.iter().map(|f| f.0).collect();
    Grid { sample: Sample { number: message.number, dfs, readings: message.all_readings() } }
}

/// Sixteen nodes and random positions of one service's grid.
fn service_positions(letter: &str, grid: &Grid, random: &mut Random) -> Vec<Vector> {
    let mut cases = nodes(&format!("service-{letter}"), grid);
    for i in 0..20 {
        let position = random_position(random, grid);
        cases.push(case(format!("service-{letter}-at-{i}"), &grid.bytes(), position));
    }
    cases
}
