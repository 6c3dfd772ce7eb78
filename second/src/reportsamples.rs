//! Points to make reports of, and texts for the program report.

use crate::gridsamples::{Grid, HALF_TURN};
use crate::hex::hex;
use crate::random::Random;
use crate::report::{Point, MOST_POINTS};
use crate::report_program::{LONGEST_LINE, LONGEST_MESSAGE};
use crate::samples::Sample;
use crate::vectors::antimeridian::random_grid_across;
use crate::vectors::shifts::{random_grid, random_position};
use std::path::Path;

/// Document 01's positions P1 to P6 of grid K: the middle, node 1, one step north of it, node 16, and two east of node 6.
pub fn worked_points() -> [Point; 6] {
    let k = Grid::k();
    let [first, six] = [1, 6].map(|node| k.at_node(node));
    let beyond = [first[0] + 1, first[1]];
    [k.origin(), first, beyond, k.at_node(16), [six[0], six[1] + 180_000], [six[0], six[1] + 179_999]]
}

/// Points in and beside a grid, one in eight past the limits of its message.
pub fn any_points(random: &mut Random, grid: &Grid, count: usize) -> Vec<Point> {
    let point = |random: &mut Random| match random.below(16) {
        0 => [random.bits() as i64, random.bits() as i64],
        1 => [grid.origin()[0], [i64::MIN, i64::MAX][random.below(2) as usize]],
        2 => grid.moved(grid.origin(), [0, 2 * grid.spacing()[1]]),
        _ => random_position(random, grid),
    };
    (0..count).map(|_| point(random)).collect()
}

/// The same few points of a list over and over, so that equal counts stand at many places.
pub fn over_and_over(random: &mut Random, points: &[Point], count: usize) -> Vec<Point> {
    (0..count).map(|_| points[random.below(points.len() as u64) as usize]).collect()
}

/// The text of a message, a component and points.
fn text(message: &[u8], component: u8, points: &[Point]) -> Vec<u8> {
    let lines: String = points.iter().map(|[north, east]| format!("{north} {east}\n")).collect();
    format!("{}\n{component}\n{lines}", hex(message)).into_bytes()
}

/// The text of the first lines and points of grid K, and of further lines as they are given.
fn k_text(behind: &str) -> Vec<u8> {
    [text(&Grid::k().bytes(), 2, &worked_points()), behind.as_bytes().to_vec()].concat()
}

/// The text of grid K's points under another first or second line.
fn under(first: &str, second: &str) -> Vec<u8> {
    let points = text(&[], 2, &worked_points());
    [format!("{first}\n{second}\n").as_bytes(), &points[4..]].concat()
}

/// A name and a text.
type Named = (String, Vec<u8>);

/// Texts that are answered with numbers.
fn answered() -> Vec<Named> {
    let mut random = Random::new(101);
    let k = Grid::k();
    let six = k.at_node(6);
    let east = |steps: i64| [six[0], six[1] + steps];
    let mut texts = vec![
        ("worked".to_string(), k_text("")),
        ("negated".to_string(), text(&k.negated().bytes(), 2, &worked_points())),
        ("absent".to_string(), text(&k.set_node(2, 7, None).bytes(), 2, &[six, east(1), east(3_600_000)])),
        ("spacing".to_string(), text(&k.set(194, 0).bytes(), 2, &worked_points())),
        ("off".to_string(), text(&k.bytes(), 0, &worked_points())),
        ("no-points".to_string(), text(&k.bytes(), 1, &[])),
        ("one-point".to_string(), text(&k.bytes(), 2, &[six])),
        ("equal".to_string(), text(&k.bytes(), 2, &[six, east(1), k.at_node(1), six, k.at_node(1), east(180_000)])),
        ("ends".to_string(), text(&k.bytes(), 2, &[[i64::MIN, i64::MAX], [0, HALF_TURN + 1], [0, -HALF_TURN], six])),
        ("kind".to_string(), text(&Sample::zeros(1025).bytes(), 2, &worked_points())),
        ("short".to_string(), text(&[], 2, &worked_points())),
        ("cut".to_string(), text(&k.bytes()[..72], 2, &worked_points())),
        ("longest-message".to_string(), text(&[0; LONGEST_MESSAGE], 2, &worked_points())),
    ];
    for component in 0..3 {
        for (word, grid) in [
            ("1023", random_grid(&mut random, 1023)),
            ("1024", random_grid(&mut random, 1024)),
            ("across", random_grid_across(&mut random)),
        ] {
            let points = any_points(&mut random, &grid, 300);
            texts.push((format!("{word}-{component}"), text(&grid.bytes(), component, &points)));
        }
    }
    let few = any_points(&mut random, &k, 40);
    let most = over_and_over(&mut random, &few, MOST_POINTS);
    texts.push(("10000".to_string(), text(&k.bytes(), 2, &most)));
    texts
}

/// Texts of unusual form that are sound, and such as are refused.
fn sound_forms() -> Vec<Named> {
    let hexed = hex(&Grid::k().bytes());
    let many = text(&Grid::k().bytes(), 2, &[Grid::k().origin(); MOST_POINTS + 1]);
    let many_of_3 = text(&Grid::k().bytes(), 3, &[Grid::k().origin(); MOST_POINTS + 1]);
    let widest = format!("1764000000 {:0>1$}\n", "396000000", LONGEST_LINE - "1764000000 ".len());
    let ended = k_text("");
    let texts = [
        ("empty-lines-at-the-end", k_text("\n\n\n")),
        ("no-newline-at-the-end", ended[..ended.len() - 1].to_vec()),
        ("leading-zeros", [under(&hexed, "002"), b"0001764000000 00396000000\n-0 -00\n".to_vec()].concat()),
        ("widest-line", k_text(&widest)),
        ("component-3", under(&hexed, "3")),
        ("component-255", under("-", "255")),
        ("10001", many),
        ("10001-component-3", many_of_3),
        ("25000", text(&Grid::k().bytes(), 2, &[Grid::k().at_node(6); 25_000])),
    ];
    texts.map(|(name, text)| (name.to_string(), text)).into()
}

/// Texts with a bad line.
fn bad() -> Vec<Named> {
    let hexed = hex(&Grid::k().bytes());
    let upper = hexed.to_uppercase();
    let [odd, other] = [&hexed[1..], &format!("{}g", &hexed[1..])].map(str::to_string);
    let longer = "00".repeat(LONGEST_MESSAGE + 1);
    let mut texts = vec![
        ("empty".to_string(), Vec::new()),
        ("newline".to_string(), b"\n".to_vec()),
        ("not-ascii".to_string(), k_text("1764000000 39600000\u{0660}\n")),
        ("not-utf8".to_string(), [k_text(""), vec![b'1', b' ', 0xff, b'\n']].concat()),
        ("zero-byte".to_string(), k_text("1764000000 396000000\0\n")),
        ("empty-line-between".to_string(), k_text("\n1764000000 396000000\n")),
        ("two-bad-lines".to_string(), k_text("1764000000\n1\n")),
        ("too-wide".to_string(), k_text(&format!("0 {:0>1$}\n", "0", LONGEST_LINE - 1))),
        ("no-component".to_string(), format!("{hexed}\n").into_bytes()),
        ("no-component-no-newline".to_string(), hexed.clone().into_bytes()),
        ("behind-10001".to_string(), {
            [text(&Grid::k().bytes(), 3, &[Grid::k().origin(); MOST_POINTS + 1]), b"1\n".to_vec()].concat()
        }),
    ];
    for (word, first) in [("odd", &odd), ("digit", &other), ("upper-case", &upper), ("too-long", &longer)] {
        texts.push((format!("message-{word}"), under(first, "2")));
    }
    for (word, first) in [("none", ""), ("two-hyphens", "--"), ("two-words", "- -"), ("return", "-\r")] {
        texts.push((format!("message-{word}"), under(first, "2")));
    }
    for (place, second) in ["256", "-1", "-0", "+2", "two", "2 ", " 2", "2 2", "", "2.0", "2\r"].iter().enumerate() {
        texts.push((format!("component-{place}"), under(&hexed, second)));
    }
    let points = [
        "1764000000",
        "1764000000 396000000 0",
        "1764000000  396000000",
        " 1764000000 396000000",
        "1764000000 396000000 ",
        "1764000000\t396000000",
        "1764000000,396000000",
        "+1764000000 396000000",
        "1764000000 +396000000",
        "1764000000.0 396000000",
        "north east",
        "9223372036854775808 0",
        "-9223372036854775809 0",
        "0 9223372036854775808",
        "0 -9223372036854775809",
        "0 99999999999999999999",
        "- 0",
        "0 -",
        "--1 0",
        "1- 0",
        "0x1 0",
        " ",
        "1764000000 396000000\r",
    ];
    for (place, point) in points.iter().enumerate() {
        texts.push((format!("point-{place}"), k_text(&format!("{point}\n"))));
    }
    texts.into_iter().map(|(name, text)| (format!("bad-{name}"), text)).collect()
}

/// All texts for the program report by their names.
pub fn texts() -> Vec<Named> {
    [answered(), sound_forms(), bad()].concat()
}

/// Writes the texts into a folder, each as a file of its name.
pub fn write(dir: &Path) -> std::io::Result<()> {
    std::fs::create_dir_all(dir)?;
    texts().iter().try_for_each(|(name, text)| std::fs::write(dir.join(format!("{name}.txt")), text))
}
