//! Files and texts on which the programs samples and write_samples are tried.

use crate::answers::{file_of, right_claims, Point, MOST_POINTS};
use crate::answersamples::{as_many, claims_of_k, height_near, misshapen, other_count};
use crate::gridsamples::Grid;
use crate::hex::hex;
use crate::samples::Sample;
use std::path::Path;

/// A grid of each number with points of all components in it.
fn other_grids() -> Vec<(String, Vec<u8>, Vec<Point>)> {
    let mut grids = Vec::new();
    for number in [1023, 1024] {
        let grid = Grid::of(number, [-3_000, 41_000], [700, 900], [1, -2, 3], |component, node| {
            node as i64 * if component == 1 { -9 } else { 11 }
        });
        let at = |node: usize, steps: [i64; 2]| grid.moved(grid.at_node(node), steps);
        let positions = [grid.origin(), at(4, [-1, -1]), at(13, [12_345, 678]), at(6, [-7, 9_999])];
        let each = |position: [i64; 2]| (0..3).map(move |component| Point { component, position });
        grids.push((number.to_string(), grid.bytes(), positions.into_iter().flat_map(each).collect()));
    }
    grids
}

/// The files, each with its name: right ones, other shapes, refused messages and bad points.
fn files() -> Vec<(String, Vec<u8>)> {
    let (k, claims) = (Grid::k().bytes(), claims_of_k());
    let right = file_of(&k, &claims);
    let mut files = vec![
        ("right".to_string(), right.clone()),
        ("no-point".to_string(), file_of(&k, &[])),
        ("1000-points".to_string(), file_of(&k, &as_many(&claims, MOST_POINTS))),
        ("claim-1000".to_string(), file_of(&k, &other_count(&as_many(&claims, MOST_POINTS), 1_000, 0))),
        ("short".to_string(), file_of(&[], &claims)),
        ("number".to_string(), file_of(&[0; 73], &claims)),
        ("length".to_string(), file_of(&k[..72], &claims)),
        ("kind".to_string(), file_of(&Sample::usual(1026).bytes(), &claims)),
        ("range".to_string(), file_of(&Grid::k().set(193, -1_296_001).bytes(), &claims)),
        ("fill".to_string(), file_of(&[&k[..72], &[1]].concat(), &claims)),
        ("longest".to_string(), file_of(&[0x3f; 65_535], &as_many(&claims, MOST_POINTS))),
        ("longer".to_string(), [file_of(&[0x3f; 65_535], &as_many(&claims, MOST_POINTS)), vec![2]].concat()),
        ("two-longest".to_string(), file_of(&[0x3f; 65_535], &as_many(&claims, MOST_POINTS)).repeat(2)),
    ];
    for (number, message, points) in other_grids() {
        let claims = right_claims(&message, &points).expect("points that are answered");
        files.push((number, file_of(&message, &claims)));
    }
    for place in 1..=5 {
        let count = claims[place - 1].count + if place % 2 == 0 { 1 } else { -1 };
        files.push((format!("claim-{place}"), file_of(&k, &other_count(&claims, place, count))));
    }
    for length in [1, 2, 3, 75, 76, 77, 79, 103, 104, 105, 215] {
        files.push((format!("cut-{length}"), right[..length].to_vec()));
    }
    files.extend(misshapen(&k, &claims));
    files
}

/// A text of a message and of points, one to a line.
fn text_of(message: &[u8], points: &[Point]) -> String {
    let line = |point: &Point| format!("{} {} {}\n", point.component, point.position[0], point.position[1]);
    format!("{}\n{}", hex(message), points.iter().map(line).collect::<String>())
}

/// The texts, each with its name: right ones, refused ones and bad input.
fn texts() -> Vec<(String, String)> {
    let k = Grid::k().bytes();
    let points: Vec<Point> = claims_of_k().iter().map(|claim| claim.point).collect();
    let right = text_of(&k, &points);
    let many = |count: usize| -> Vec<Point> { points.iter().copied().cycle().take(count).collect() };
    let with = |point: Point, at: usize| [&many(at)[..], &[point]].concat();
    let outside = height_near(1, [1, 0]);
    let mut texts = vec![
        ("right".to_string(), right.clone()),
        ("no-point".to_string(), text_of(&k, &[])),
        ("no-newline".to_string(), right.trim_end().to_string()),
        ("empty-lines-behind".to_string(), format!("{right}\n\n\n")),
        ("1000-points".to_string(), text_of(&k, &many(1_000))),
        ("1001-points".to_string(), text_of(&k, &many(1_001))),
        ("point-1001-refused".to_string(), text_of(&k, &with(outside, 1_000))),
        ("empty-message".to_string(), text_of(&[], &points)),
        ("number".to_string(), text_of(&[0; 73], &points)),
        ("length".to_string(), text_of(&k[..72], &points)),
        ("long-message".to_string(), text_of(&[&k[..], &[0; 55]].concat(), &points)),
        ("fill".to_string(), text_of(&[&k[..72], &[1]].concat(), &points)),
        ("range".to_string(), text_of(&Grid::k().set(193, -1_296_001).bytes(), &points)),
        ("kind".to_string(), text_of(&Sample::usual(1026).bytes(), &points)),
        ("outside".to_string(), text_of(&k, &with(outside, 3))),
        ("off".to_string(), text_of(&k, &[points[0], Point { component: 0, ..points[0] }, outside])),
        ("component".to_string(), text_of(&k, &with(Point { component: 3, ..points[0] }, 0))),
        ("component-255".to_string(), text_of(&k, &with(Point { component: 255, ..points[0] }, 2))),
        ("position".to_string(), text_of(&k, &with(Point { component: 2, position: [i64::MIN, i64::MAX] }, 1))),
        ("empty".to_string(), String::new()),
        ("empty-lines-alone".to_string(), "\n\n".to_string()),
    ];
    texts.extend(other_grids().into_iter().map(|(number, message, points)| (number, text_of(&message, &points))));
    let first_lines = [("odd-digits", "3ff"), ("no-digit", "3g"), ("upper-case", "3FF0"), ("two-words", "3f f0")];
    texts.extend(first_lines.map(|(name, line)| (format!("bad-message-{name}"), format!("{line}\n2 0 0\n"))));
    let lines = [
        ("empty-line", ""),
        ("one-word", "2"),
        ("two-words", "2 0"),
        ("four-words", "2 0 0 0"),
        ("two-spaces", "2  0 0"),
        ("space-behind", "2 0 0 "),
        ("plus", "2 +1 0"),
        ("letter", "2 0x1 0"),
        ("sign-alone", "2 - 0"),
        ("component-256", "256 0 0"),
        ("component-below-zero", "-1 0 0"),
        ("past-64-bits", "2 9223372036854775808 0"),
    ];
    texts.extend(lines.map(|(name, line)| (format!("bad-{name}"), format!("{right}{line}\n2 0 0\nx\n"))));
    texts
}

/// Writes the files and the texts into a folder.
pub fn write(dir: &Path) -> std::io::Result<()> {
    for (name, bytes) in files() {
        std::fs::write(dir.join(format!("{name}.samples")), bytes)?;
    }
    for (name, text) in texts() {
        std::fs::write(dir.join(format!("{name}.txt")), text)?;
    }
    Ok(())
}
