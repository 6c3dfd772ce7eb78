//! Checks a picture of the command map against the shifts that are worked out here at each of its places.

use crate::grid::{by_whole_turns, count_at, grid_message, Plan, HEIGHT};
use crate::map_picture::{elements, rectangles, Element};
use crate::message::Message;
use crate::refusal::Refusal;
use crate::shown::decimal;

/// Places from a node to the next, and beyond the outer nodes.
const IN_A_CELL: i128 = 100;
const BEYOND: i128 = 20;
/// Places of a row, and rows.
const SIDE: usize = 340;
/// Bands, at most.
const MOST_BANDS: i64 = 16;

/// A grid message, a component, and where the grid stands in steps.
struct Grid<'a> {
    message: &'a Message,
    plan: &'static Plan,
    component: usize,
    origin: [i128; 2],
    spacing: [i128; 2],
}

impl Grid<'_> {
    /// The count at a position, whose longitude may be beyond 180 degrees.
    fn count(&self, [north, east]: [i128; 2]) -> Result<i64, Refusal> {
        let east = self.plan.turn.map_or(east, |turn| by_whole_turns(east, turn));
        count_at(self.message, self.plan, self.component, [north, east])
    }

    /// The position of a node, from 0.
    fn node(&self, index: usize) -> [i128; 2] {
        let (row, column) = (index as i128 / 4, index as i128 % 4);
        let [north, east] = self.origin;
        [north + (3 - 2 * row) * self.spacing[0] / 2, east + (2 * column - 3) * self.spacing[1] / 2]
    }

    /// Steps from a place to the next.
    fn step(&self) -> [i128; 2] {
        self.spacing.map(|spacing| spacing / IN_A_CELL)
    }

    /// The middle of the first place.
    fn first(&self) -> [i128; 2] {
        let ([north, east], [to_north, to_east]) = (self.node(0), self.step());
        [north + BEYOND * to_north - to_north / 2, east - BEYOND * to_east + to_east / 2]
    }

    /// The counts at all places.
    fn places(&self) -> Vec<Option<i64>> {
        let ([north, east], [to_north, to_east]) = (self.first(), self.step());
        let at = |place: usize| {
            let (row, column) = ((place / SIDE) as i128, (place % SIDE) as i128);
            self.count([north - row * to_north, east + column * to_east]).ok()
        };
        (0..SIDE * SIDE).map(at).collect()
    }

    /// A count as a text.
    fn text(&self, count: i64) -> String {
        decimal(count.into(), if self.plan.turn.is_some() && self.component != HEIGHT { 5 } else { 4 })
    }
}

/// Which places a path covers.
fn covered(path: &str) -> Result<Vec<bool>, String> {
    let mut covered = vec![false; SIDE * SIDE];
    for [column, row, length] in rectangles(path).ok_or("a path of another form")? {
        if column + length > SIDE || row >= SIDE {
            return Err("a path beyond the places".to_string());
        }
        covered[row * SIDE + column..][..length].fill(true);
    }
    Ok(covered)
}

/// Fails with words where something is not so.
fn must(so: bool, words: impl Into<String>) -> Result<(), String> {
    so.then_some(()).ok_or_else(|| words.into())
}

/// How light a colour is, from 0 to 255,000.
fn lightness(colour: &str) -> Option<u32> {
    let part = |from: usize| u32::from_str_radix(colour.get(from..from + 2)?, 16).ok();
    Some(299 * part(1)? + 587 * part(3)? + 114 * part(5)?)
}

/// What the picture says of its places is what is worked out here.
fn check_head(grid: &Grid, head: &Element) -> Result<(), String> {
    let expected = [
        ("data-component", grid.component as i128),
        ("data-north", grid.first()[0]),
        ("data-east", grid.first()[1]),
        ("data-step-north", grid.step()[0]),
        ("data-step-east", grid.step()[1]),
        ("data-side", SIDE as i128),
    ];
    expected.into_iter().try_for_each(|(name, value)| {
        must(head.number(name).map(i128::from) == Some(value), format!("{name} is not {value}"))
    })
}

/// The bands cover the answered places and no others, each by its count, and grow lighter.
fn check_bands(parts: &[Element], counts: &[Option<i64>], range: Option<(i64, i64)>) -> Result<(), String> {
    let mut shown: Vec<Option<i64>> = vec![None; counts.len()];
    let mut last = None;
    for part in parts.iter().filter(|part| part.get("data-band").is_some()) {
        let band = part.number("data-band").ok_or("no band")?;
        let light = lightness(part.get("fill").unwrap_or("")).ok_or("no colour")?;
        must(last.is_none_or(|(before, dark)| before < band && dark < light), "the bands do not grow lighter")?;
        last = Some((band, light));
        for (place, _) in covered(part.get("d").unwrap_or(""))?.iter().enumerate().filter(|covered| *covered.1) {
            must(shown[place].is_none(), format!("place {place} is in two bands"))?;
            shown[place] = Some(band);
        }
    }
    for (place, (&count, &band)) in counts.iter().zip(&shown).enumerate() {
        let expected = count.and_then(|count| range.map(|range| band_of(count, range)));
        must(band == expected, format!("place {place} has band {band:?}, and {expected:?} is expected"))?;
    }
    Ok(())
}

/// The band of a count: equal parts of the range, at most sixteen.
fn band_of(count: i64, (smallest, greatest): (i64, i64)) -> i64 {
    let numbers = greatest - smallest + 1;
    (count - smallest) * numbers.min(MOST_BANDS) / numbers
}

/// The level to be marked: zero where it is in the range, else the mean where it is.
fn level(grid: &Grid, range: Option<(i64, i64)>) -> Option<(i64, &'static str)> {
    let (smallest, greatest) = range?;
    let inside = |level: i64| smallest <= level && level <= greatest;
    let mean = grid.message.reading(grid.plan.mean[grid.component])? * grid.plan.mean_factor[grid.component] as i64;
    if inside(0) {
        Some((0, "zero"))
    } else {
        inside(mean).then_some((mean, "mean"))
    }
}

/// The line is at the places from which a neighbour east or south is on the other side of the level.
fn check_line(parts: &[Element], counts: &[Option<i64>], level: Option<(i64, &str)>) -> Result<(), String> {
    let line = parts.iter().find(|part| part.get("data-level").is_some());
    let Some((level, word)) = level else { return must(line.is_none(), "a line of no level") };
    let line = line.ok_or("no line")?;
    must(line.number("data-level") == Some(level) && line.get("data-word") == Some(word), "a line of another level")?;
    let drawn = covered(line.get("d").unwrap_or(""))?;
    for place in 0..counts.len() {
        let below = counts[place].map(|count| count < level);
        let east = (place % SIDE != SIDE - 1).then(|| counts[place + 1]).flatten();
        let south = counts.get(place + SIDE).copied().flatten();
        let passed = [east, south].into_iter().flatten().any(|next| below == Some(next >= level));
        must(drawn[place] == passed, format!("the line at place {place}"))?;
    }
    Ok(())
}

/// Each node stands at its place with its number and its value.
fn check_nodes(grid: &Grid, parts: &[Element], head: &Element) -> Result<(), String> {
    let nodes: Vec<&Element> = parts.iter().filter(|part| part.get("data-node").is_some()).collect();
    must(nodes.len() == 16, "not sixteen nodes")?;
    let ([left, top], [wide, high]) =
        (head.transformed("translate").ok_or("no place")?, head.transformed("scale").ok_or("no size")?);
    let fields = grid.message.readings(grid.plan.node[grid.component]);
    for (index, node) in nodes.into_iter().enumerate() {
        let value = match grid.count(grid.node(index)) {
            _ if fields[index].is_none() => "none".to_string(),
            Ok(count) => grid.text(count),
            Err(refusal) => format!("{refusal:?}").to_uppercase(),
        };
        let number = index as i64 + 1;
        must(node.number("data-node") == Some(number), format!("node {number}"))?;
        must(node.get("data-value") == Some(&value), format!("node {number} is not {value}"))?;
        let places = [20 + 100 * (index % 4), 20 + 100 * (index / 4)].map(|place| place as f64);
        let [x, y] = node.transformed("translate").ok_or("a node without a place")?;
        let near = (x - left - places[0] * wide).abs() < 0.2 && (y - top - places[1] * high).abs() < 0.2;
        must(near, format!("node {number} stands elsewhere"))?;
    }
    let labels = |words: &str| parts.iter().filter(|part| part.name == "text" && part.text == words).count();
    (0..16).try_for_each(|index| {
        let words = match (fields[index], grid.count(grid.node(index))) {
            (None, _) => format!("{}: none", index + 1),
            (_, Ok(count)) => grid.text(count),
            (_, Err(refusal)) => format!("{refusal:?}").to_uppercase(),
        };
        must(labels(&words) > 0, format!("no label {words}"))
    })
}

/// The legend has the ends of the range and the marked level, and the ground is hatched.
fn check_words(
    grid: &Grid,
    parts: &[Element],
    range: Option<(i64, i64)>,
    level: Option<(i64, &str)>,
) -> Result<(), String> {
    let has = |words: String| {
        let there = parts.iter().any(|part| part.name == "text" && part.text == words);
        must(there, format!("no words {words}"))
    };
    if let Some((smallest, greatest)) = range {
        has(format!("{} smallest", grid.text(smallest)))?;
        has(format!("{} greatest", grid.text(greatest)))?;
    }
    if let Some((level, word)) = level {
        has(format!("{} {word}", grid.text(level)))?;
    }
    let ground = parts.iter().position(|part| part.name == "rect" && part.get("fill") == Some("url(#hatch)"));
    let bands = parts.iter().position(|part| part.get("data-component").is_some());
    must(ground.is_some() && ground < bands, "the ground is not hatched")
}

/// Nothing where a picture shows a component of a message, else what is wrong, or the refusal where there is no picture.
pub fn check(bytes: &[u8], component: usize, svg: &str) -> Result<(), String> {
    let (message, plan) = match grid_message(bytes) {
        Ok(found) => found,
        Err(refusal) => return must(svg.is_empty(), format!("a picture of a message that is refused as {refusal:?}")),
    };
    let anywhere = count_at(&message, plan, component, [0, 0]);
    if matches!(anywhere, Err(Refusal::Off | Refusal::Method | Refusal::Origin | Refusal::Spacing)) {
        return must(svg.is_empty(), "a picture of a grid without one");
    }
    let [origin, spacing] = [plan.origin, plan.spacing]
        .map(|dfs| dfs.map(|df| i128::from(message.reading(df).expect("a value")) * plan.steps));
    let grid = Grid { message: &message, plan, component, origin, spacing };
    let parts = elements(svg);
    let head = parts.iter().find(|part| part.get("data-component").is_some()).ok_or("no places")?;
    let counts = grid.places();
    let nodes = (0..16).filter_map(|index| grid.count(grid.node(index)).ok());
    let all: Vec<i64> = counts.iter().flatten().copied().chain(nodes).collect();
    let range = all.iter().min().copied().zip(all.iter().max().copied());
    let level = level(&grid, range);
    check_head(&grid, head)?;
    check_bands(&parts, &counts, range)?;
    check_line(&parts, &counts, level)?;
    check_nodes(&grid, &parts, head)?;
    check_words(&grid, &parts, range, level)
}
