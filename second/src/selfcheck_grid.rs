//! The second program's own checks of the shifts.

use crate::fields::by_df;
use crate::grid::{by_whole_turns, nearest, shifts, Answer, Plan, COMPONENTS, ELLIPSOIDAL, HEIGHT, PLANE};
use crate::gridsamples::{Grid, HALF_TURN};
use crate::random::Random;
use crate::refusal::{number_of, Refusal};
use crate::samples::Sample;
use crate::selfcheck::{billionths, Group};
use crate::vectors::antimeridian::random_grid_across;
use crate::vectors::shifts::{random_grid, random_position};

/// All groups of checks of the shifts.
pub fn groups() -> Vec<Group> {
    vec![
        factors(),
        worked(),
        second_answer(),
        floats(),
        parts_apart(),
        rounding(),
        whole_turns(),
        both_names_of_the_meridian(),
        same_elsewhere(),
        plane_is_not_turned(),
        at_nodes(),
        bounded_change(),
    ]
}

/// One component's count at a position.
fn count(grid: &Grid, component: usize, [north, east]: [i64; 2]) -> Result<i64, Refusal> {
    shifts(&grid.bytes(), north, east)[component].count
}

/// The unit of a number as printed.
fn unit(printed: &str) -> &str {
    printed.trim_start_matches(|c: char| c.is_ascii_digit() || c == '.' || c == ' ')
}

/// How often a step or a count goes into the printed resolution of a field, if the units agree and nothing is left.
fn in_one_raw_unit(df: u16, part: &str) -> Option<i128> {
    let resolution = by_df(df).printed_resolution;
    let (whole, part_of_it) = (billionths(resolution), billionths(part));
    (unit(resolution) == unit(part) && whole % part_of_it == 0).then_some(whole / part_of_it)
}

/// Checks the steps and factors of a plan whose data fields begin with the one given.
fn check_plan(group: &mut Group, plan: &Plan, first: u16, step: &str, counts: [&str; 3]) {
    for (place, df) in (first..first + 4).enumerate() {
        group.equal("position field", [plan.origin, plan.spacing].concat()[place], df);
        group.equal(&format!("steps of DF{df}"), Some(plan.steps), in_one_raw_unit(df, step));
    }
    for (component, count) in counts.into_iter().enumerate() {
        let [mean, node] = [4, 7].map(|behind| first + behind + component as u16);
        group.equal("mean and node field", [plan.mean[component], plan.node[component]], [mean, node]);
        group.equal(&format!("DF{mean}"), Some(plan.mean_factor[component]), in_one_raw_unit(mean, count));
        group.equal(&format!("DF{node}"), Some(plan.node_factor[component]), in_one_raw_unit(node, count));
    }
}

/// Steps and factors against the resolutions that 000 prints, over document 01's steps and counts.
fn factors() -> Group {
    let mut group = Group::new("steps and factors against printed resolutions");
    let seconds = "0.00001 [\"]";
    let tenth_of_millimetre = "0.0001 m";
    check_plan(&mut group, &ELLIPSOIDAL, 192, "0.0001 [\"]", [seconds, seconds, tenth_of_millimetre]);
    check_plan(&mut group, &PLANE, 202, "0.001 m", [tenth_of_millimetre; 3]);
    for (number, plan) in [(1023, &ELLIPSOIDAL), (1024, &PLANE)] {
        let sample = Grid::of(number, [0, 0], [1, 1], [0, 0, 0], |_, _| 0);
        group.equal("steps of the samples", sample.unit() as i128, plan.steps);
    }
    group
}

/// P1 to P11 as document 01 prints them.
fn worked() -> Group {
    let mut group = Group::new("P1 to P11");
    let k = Grid::k();
    group.equal("middle", k.origin(), [1_764_000_000, 396_000_000]);
    group.equal("node 1", k.at_node(1), [1_769_400_000, 390_600_000]);
    let [north, east] = k.at_node(6);
    let negated = k.negated();
    let gap = k.set_node(2, 7, None);
    let mut at = |name: &str, grid: &Grid, component: usize, position: [i64; 2], expected: Result<i64, Refusal>| {
        group.equal(name, count(grid, component, position), expected);
    };
    at("P1", &k, 2, k.origin(), Ok(469_285));
    at("P2", &k, 2, k.at_node(1), Ok(469_210));
    at("P3", &k, 2, [k.at_node(1)[0] + 1, k.at_node(1)[1]], Err(Refusal::Outside));
    at("P4", &k, 2, k.at_node(16), Ok(469_360));
    at("P5", &k, 2, [north, east + 180_000], Ok(469_261));
    at("P6", &k, 2, [north, east + 179_999], Ok(469_260));
    at("P7", &negated, 2, [north, east + 180_000], Ok(469_139));
    at("P8", &gap, 2, [north, east], Ok(469_260));
    at("P9", &gap, 2, [north, east + 1], Err(Refusal::Absent));
    at("P10", &k, 0, k.origin(), Err(Refusal::Off));
    at("P10 east", &k, 1, k.origin(), Err(Refusal::Off));
    at("P11", &k.set(194, 0), 2, k.origin(), Err(Refusal::Spacing));
    at("P11 east", &k.set(195, 0), 2, k.origin(), Err(Refusal::Spacing));
    group
}

/// The answers as arc seconds, metres or refusal numbers.
fn second_answer() -> Group {
    let mut group = Group::new("the answers as floats or refusal numbers");
    let answers = |grid: &Grid| {
        let [north, east] = grid.origin();
        shifts(&grid.bytes(), north, east).map(|part| part.answer)
    };
    let k = Grid::k();
    group.equal("P1 and P10", answers(&k), [Answer::Refused(10), Answer::Refused(10), Answer::Metres(46.9285)]);
    let on = k.set(190, 1).set(196, 100).set(197, -1);
    let seconds = [Answer::Seconds(0.1), Answer::Seconds(-0.001), Answer::Metres(46.9285)];
    group.equal("seconds", answers(&on), seconds);
    let plane = Grid::of(1024, [0, 0], [1, 1], [511, -511, 0], |_, _| 0);
    group.equal("1024", answers(&plane), [5.11, -5.11, 0.0].map(Answer::Metres));
    group
}

/// The decimal number that a count stands for, made a float as a whole and not by a division.
fn as_decimal(count: i64, places: u32) -> f64 {
    format!("{count}e-{places}").parse().expect("a decimal number")
}

/// The float of an answered part is the one nearest to its decimal number, and that of a refused part has no bit set.
fn floats() -> Group {
    let mut group = Group::new("floats of answered and refused parts, by their bits");
    let mut random = Random::new(26);
    for number in [1023, 1024].repeat(300) {
        let grid = random_grid(&mut random, number).set(190, random.within(0, 1)).set(213, random.within(0, 1));
        let [north, east] = random_position(&mut random, &grid);
        for (component, part) in shifts(&grid.bytes(), north, east).iter().enumerate() {
            let places = if number == 1023 && component != HEIGHT { 5 } else { 4 };
            let expected = part.count.map_or(0.0, |count| as_decimal(count, places));
            group.equal("bits", part.float().to_bits(), expected.to_bits());
        }
    }
    group
}

/// Each part keeps its own order of refusals, and a refusal of the message or the position is that of all parts.
fn parts_apart() -> Group {
    let mut group = Group::new("parts refused differently at one position");
    let grid = Grid::of(1023, [0, 0], [6, 6], [1, 2, 3], |_, _| 0);
    let mut at = |name: &str, grid: &Grid, position: [i64; 2], expected: [u8; COMPONENTS]| {
        let numbers = shifts(&grid.bytes(), position[0], position[1]).map(|part| number_of(&part.count));
        group.equal(name, numbers, expected);
    };
    let inside = [100, 100];
    at("answered", &grid, inside, [0, 0, 0]);
    at("DF190 0", &grid.set(190, 0), inside, [10, 10, 0]);
    at("DF191 0", &grid.set(191, 0), inside, [0, 0, 10]);
    at("DF212 1", &grid.set(212, 1), inside, [11, 11, 0]);
    at("DF213 1", &grid.set(213, 1), inside, [0, 0, 11]);
    at("off and method", &grid.set(190, 0).set(213, 3), inside, [10, 10, 11]);
    at("off before method", &grid.set(190, 0).set(212, 3), inside, [10, 10, 0]);
    for component in 0..COMPONENTS {
        let alone = [0, 1, 2].map(|other| if other == component { 15 } else { 0 });
        at("mean", &grid.set(grid.mean_field(component), None), inside, alone);
        at("node", &grid.set_node(component, 7, None), inside, alone);
        at("node without weight", &grid.set_node(component, 7, None), grid.at_node(10), [0, 0, 0]);
    }
    let off = grid.set(190, 0);
    at("origin", &off.set(192, None), inside, [10, 10, 12]);
    at("spacing", &off.set(195, 0), inside, [10, 10, 13]);
    at("outside", &off, [0, 45_001], [10, 10, 14]);
    at("edge", &grid, [0, 45_000], [0, 0, 0]);
    at("position", &off, [3_240_000_001, 0], [9, 9, 9]);
    at("kind", &Grid { sample: Sample::zeros(1025) }, [3_240_000_001, 0], [7, 7, 7]);
    group
}

/// Rounding on both sides of zero.
fn rounding() -> Group {
    let mut group = Group::new("rounding, halves away from zero");
    let cases = [
        (0, 2, 0),
        (1, 2, 1),
        (-1, 2, -1),
        (3, 2, 2),
        (-3, 2, -2),
        (1, 3, 0),
        (2, 3, 1),
        (-2, 3, -1),
        (121, 2, 61),
        (-121, 2, -61),
    ];
    for (numerator, denominator, expected) in cases {
        group.equal("nearest", nearest(numerator, denominator), expected);
    }
    for numerator in -1_000..=1_000i128 {
        for denominator in 1..=24 {
            let twice = 2 * (nearest(numerator, denominator) * denominator - numerator).abs();
            let away = nearest(numerator, denominator).abs() * denominator >= numerator.abs();
            group.check(twice < denominator || (twice == denominator && away), || format!("{numerator}/{denominator}"));
        }
    }
    group
}

/// A difference of longitudes is brought to at least -6,480,000,000 and less than 6,480,000,000.
fn whole_turns() -> Group {
    let mut group = Group::new("differences brought by whole turns");
    group.equal("turn of 1023", ELLIPSOIDAL.turn, Some(12_960_000_000));
    group.equal("turn of 1024", PLANE.turn, None);
    let turned = |difference: i128| by_whole_turns(difference, 12_960_000_000);
    let cases = [
        (0, 0),
        (1, 1),
        (-1, -1),
        (6_479_999_999, 6_479_999_999),
        (6_480_000_000, -6_480_000_000),
        (6_480_000_001, -6_479_999_999),
        (-6_480_000_000, -6_480_000_000),
        (-6_480_000_001, 6_479_999_999),
        (12_959_999_999, -1),
        (12_960_000_000, 0),
        (-12_960_000_000, 0),
        (-12_959_999_999, 1),
    ];
    for (difference, expected) in cases {
        group.equal("difference", turned(difference), expected);
    }
    let mut random = Random::new(23);
    for _ in 0..1_000 {
        let difference = random.within(-12_960_000_000, 12_960_000_000) as i128;
        let brought = turned(difference);
        let in_reach = (-6_480_000_000..6_480_000_000).contains(&brought);
        group.check(in_reach && (brought - difference) % 12_960_000_000 == 0, || format!("{difference} to {brought}"));
    }
    group
}

/// Longitudes -180 and +180 degrees get the same answer or refusal on every grid, whatever else is asked for.
fn both_names_of_the_meridian() -> Group {
    let mut group = Group::new("-180 and +180 degrees");
    let mut random = Random::new(24);
    for turn in 0..600 {
        let grid = match turn % 6 {
            0 => random_grid(&mut random, 1023),
            1 => random_grid_across(&mut random).set(193, 1_296_000),
            2 => random_grid_across(&mut random).set(193, -1_296_000),
            _ => random_grid_across(&mut random),
        };
        let high = grid.spacing()[0];
        let north = grid.origin()[0] + random.within(-2 * high, 2 * high);
        let at = |east: i64| shifts(&grid.bytes(), north, east);
        group.equal("answer", at(-HALF_TURN), at(HALF_TURN));
        group.equal("past it", (at(-HALF_TURN - 1), at(HALF_TURN + 1)), (at(i64::MIN), at(i64::MAX)));
    }
    group
}

/// A grid answers the same at the same steps from its origin, whether it lies across 180 degrees or not.
fn same_elsewhere() -> Group {
    let mut group = Group::new("grids across 180 degrees as elsewhere");
    let mut random = Random::new(25);
    let negated = Grid::k().negated();
    for grid in [Grid::k(), negated, Grid::k().set_node(2, 7, None)] {
        for longitude in [1_296_000, -1_296_000, 1_295_640, -1_294_921] {
            let across = grid.set(193, longitude);
            for node in 1..=16 {
                for step in [0, 1, 179_999, 180_000, 180_001] {
                    let at = |grid: &Grid| {
                        let [north, east] = grid.moved(grid.at_node(node), [0, step]);
                        shifts(&grid.bytes(), north, east)
                    };
                    group.equal("grid K", at(&across), at(&grid));
                }
            }
        }
    }
    for _ in 0..600 {
        let across = random_grid_across(&mut random);
        let [high, wide] = across.spacing();
        let steps = [random.within(-2 * high, 2 * high), random.within(-2 * wide, 2 * wide)];
        let elsewhere = across.set(193, random.within(-1_200_000, 1_200_000));
        let at = |grid: &Grid| {
            let [north, east] = grid.moved(grid.origin(), steps);
            shifts(&grid.bytes(), north, east)
        };
        group.equal("random grid", at(&across), at(&elsewhere));
    }
    group
}

/// Eastings of 1024 are compared as they are, a turn of 1023 apart being outside.
fn plane_is_not_turned() -> Group {
    let mut group = Group::new("1024 is not turned");
    for raw in [0, 648_000, 1_296_000, 67_108_863] {
        let grid = Grid::of(1024, [0, raw], [4_095, 4_095], [1, 2, 3], |_, _| 0);
        let east = grid.origin()[1];
        group.equal("middle", count(&grid, HEIGHT, [0, east]), Ok(300));
        for turns in [-2, -1, 1, 2] {
            let at = count(&grid, HEIGHT, [0, east + turns * 2 * HALF_TURN]);
            group.equal("turned", at, Err(Refusal::Outside));
        }
    }
    group
}

/// At a node the shift is mean and node alone.
fn at_nodes() -> Group {
    let mut group = Group::new("shifts at nodes");
    let mut random = Random::new(21);
    for number in [1023, 1024].repeat(40) {
        let grid = random_grid(&mut random, number);
        for node in 1..=16 {
            for component in 0..3 {
                let given = count(&grid, component, grid.at_node(node));
                let factor = if number == 1023 && component < 2 { 3 } else { 10 };
                let mean = grid.sample.value(grid.mean_field(component));
                let value = grid.node(component, node).ok_or(Refusal::Absent);
                let expected = value.map(|value| mean * 100 + value * factor);
                group.equal("node", given, expected);
            }
        }
    }
    group
}

/// The greatest difference of neighbouring nodes, in counts: in a column and in a row.
fn greatest_differences(grid: &Grid, component: usize, factor: i64) -> [i128; 2] {
    let node = |row: usize, column: usize| grid.node(component, row * 4 + column + 1).expect("a node with a value");
    let mut most = [0, 0];
    for line in 0..4 {
        for step in 0..3 {
            most[0] = most[0].max((node(step + 1, line) - node(step, line)).abs());
            most[1] = most[1].max((node(line, step + 1) - node(line, step)).abs());
        }
    }
    most.map(|difference| (difference * factor) as i128)
}

/// Demand 3's bound on the difference of two answers, over random pairs of positions, steps being read between differences.
fn bounded_change() -> Group {
    let mut group = Group::new("the bound on the difference of two answers");
    let mut random = Random::new(22);
    for (turn, number) in [1023, 1024, 1023].repeat(150).into_iter().enumerate() {
        let across = turn % 3 == 2;
        let grid = if across { random_grid_across(&mut random) } else { random_grid(&mut random, number) };
        let grid = grid.set_nodes(|_, _| random.within(-255, 255));
        let [high, wide] = grid.spacing();
        for component in 0..3 {
            let factor = if number == 1023 && component < 2 { 3 } else { 10 };
            let [column, row] = greatest_differences(&grid, component, factor);
            let mut at = || {
                let y = random.within(-3 * high / 2, 3 * high / 2);
                let x = random.within(-3 * wide / 2, 3 * wide / 2);
                let position = grid.moved(grid.origin(), [y, x]);
                (y, x, count(&grid, component, position).expect("inside, all present"))
            };
            let (a, b) = (at(), at());
            let (h, w) = (high as i128, wide as i128);
            let steps = [(a.0 - b.0).abs() as i128, (a.1 - b.1).abs() as i128];
            let difference = (a.2 - b.2).abs() as i128 * h * w;
            let bound = h * w + steps[0] * column * w + steps[1] * row * h;
            group.check(difference <= bound, || format!("{a:?} {b:?}"));
        }
    }
    group
}
