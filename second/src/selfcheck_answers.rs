//! The second program's own checks of a vendor's sample answers (document 02, A13).

use crate::answers::{check, file_of, parts, right_claims, write, Checked, Claim, Point, Points, HEAD, MOST_POINTS};
use crate::answers_program::{checked_line, message_in, written};
use crate::answersamples::{as_many, claims_of_k, height_at, height_near, misshapen, other_count};
use crate::gridsamples::Grid;
use crate::hex::hex;
use crate::random::Random;
use crate::refusal::{number_of, Refusal};
use crate::samples::Sample;
use crate::selfcheck::Group;
use crate::vectors::shifts::random_grid;

/// The message of grid K, its bits set down one field after the other from document 01.
const MESSAGE_BY_HAND: &str = "3ff074ac44009ab016816800001254000000200000080000018000004000000a0000018000003800\
    000800000120000028000005800000c000001a0000038000007800001000000000";
/// The points P1, P2, P4, P5 and P6 of grid K: tag, length, component, north, east, claimed count.
const POINTS_BY_HAND: [&str; 5] = [
    "02 0019 02 0000000069248100 00000000179a7b00 0000000000072925",
    "02 0019 02 000000006976e6c0 0000000017481540 00000000000728da",
    "02 0019 02 0000000068d21b40 0000000017ece0c0 0000000000072970",
    "02 0019 02 00000000693ff840 000000001781c2e0 000000000007290d",
    "02 0019 02 00000000693ff840 000000001781c2df 000000000007290c",
];
/// The bytes of the message's field and of a point's.
const MESSAGE_FIELD: usize = HEAD + 73;
const POINT_FIELD: usize = 28;

/// All groups of checks of sample answers.
pub fn groups() -> Vec<Group> {
    let groups = [by_hand(), worked_points(), shapes(), cuts(), bytes_changed(), messages(), checker_order()];
    groups.into_iter().chain([writer_order(), counts_of_points(), rounds(), texts()]).collect()
}

/// The bytes that digits spell, spaces being left out.
fn bytes(digits: &str) -> Vec<u8> {
    message_in(digits.replace(' ', "").as_bytes()).expect("hexadecimal digits")
}

/// The file by hand: grid K and its five points.
fn file_by_hand() -> Vec<u8> {
    bytes(&["01 0049", MESSAGE_BY_HAND, &POINTS_BY_HAND.concat()].concat())
}

/// The refusal number and the place of a check.
fn numbers(file: &[u8]) -> (u8, usize) {
    check(file).numbers()
}

/// The refusal number of a writer that has room enough.
fn refusal(message: &[u8], points: &[Point]) -> u8 {
    number_of(&write(message, &Points::of(points), usize::MAX))
}

/// The points of claims.
fn points_of(claims: &[Claim]) -> Vec<Point> {
    claims.iter().map(|claim| claim.point).collect()
}

/// The file worked by hand against the writer and the checker.
fn by_hand() -> Group {
    let mut group = Group::new("a file of sample answers worked by hand");
    let (message, file) = (Grid::k().bytes(), file_by_hand());
    let claims = claims_of_k();
    group.equal("bytes", file.len(), 216);
    group.equal("message", hex(&message), MESSAGE_BY_HAND.to_string());
    group.equal("checked", check(&file), Checked::Accepted { points: 5 });
    group.equal("parts", parts(&file), Some((&message[..], claims.to_vec())));
    let points = Points::of(&points_of(&claims));
    group.equal("written", write(&message, &points, 216), Ok(file.clone()));
    group.equal("room", write(&message, &points, 215), Err(Refusal::Room));
    group.equal("no room", write(&message, &points, 0), Err(Refusal::Room));
    for place in 1..=5 {
        for count in [0, -469_285, claims[place - 1].count - 1, claims[place - 1].count + 1, i64::MIN, i64::MAX] {
            let other = file_of(&message, &other_count(&claims, place, count));
            group.equal("claim", numbers(&other), (25, place));
        }
    }
    let two = other_count(&other_count(&claims, 4, 0), 2, 0);
    group.equal("first of two", numbers(&file_of(&message, &two)), (25, 2));
    group
}

/// P3 and P7 to P11 as points: a refused one makes the writer refuse, and is a bad point whatever is claimed.
fn worked_points() -> Group {
    let mut group = Group::new("worked points as sample answers");
    let k = Grid::k();
    let middle = height_at(k.origin());
    let near_6 = |steps: i64| height_near(6, [0, steps]);
    for (what, grid, point, count) in
        [("P7", k.negated(), near_6(180_000), 469_139), ("P8", k.set_node(2, 7, None), near_6(0), 469_260)]
    {
        let file = write(&grid.bytes(), &Points::of(&[point]), usize::MAX).expect("a point that is answered");
        group.equal(what, parts(&file).map(|parts| parts.1), Some(vec![Claim { point, count }]));
        group.equal(what, check(&file), Checked::Accepted { points: 1 });
        let toward_zero = file_of(&grid.bytes(), &[Claim { point, count: count + 1 }]);
        group.equal(what, numbers(&toward_zero), (25, 1));
    }
    let refused = [
        ("P3", k.clone(), height_near(1, [1, 0]), 14),
        ("P9", k.set_node(2, 7, None), near_6(1), 15),
        ("P10", k.clone(), Point { component: 0, ..middle }, 10),
        ("P11", k.set(194, 0), middle, 13),
        ("component 3", k.clone(), Point { component: 3, ..middle }, 8),
        ("component 255", k.clone(), Point { component: 255, position: [i64::MIN; 2] }, 8),
        ("north", k.clone(), height_at([3_240_000_001, 0]), 9),
        ("east", k.clone(), height_at([0, i64::MIN]), 9),
        ("method", k.set(213, 2), middle, 11),
        ("origin", k.set(192, None), middle, 12),
        ("mean", k.set(198, None), middle, 15),
    ];
    for (what, grid, point, number) in refused {
        let message = grid.bytes();
        group.equal(what, refusal(&message, &[point]), number);
        for count in [0, 469_210, 469_285, -1, i64::from(number)] {
            group.equal(what, numbers(&file_of(&message, &[Claim { point, count }])), (25, 1));
        }
    }
    group
}

/// Each file of another shape is LAYOUT, also where its message is refused or its points are bad.
fn shapes() -> Group {
    let mut group = Group::new("files of another shape");
    let (k, claims) = (Grid::k().bytes(), claims_of_k());
    let wrong = other_count(&claims, 1, 0);
    for message in [&k[..], &k[..72], &[], &Sample::zeros(1021).bytes()] {
        for claims in [&claims[..], &claims[..1], &wrong] {
            for (what, file) in misshapen(message, claims) {
                group.equal(&what, numbers(&file), (24, 0));
            }
        }
    }
    group
}

/// A file cut at every length: LAYOUT, but where a field ends.
fn cuts() -> Group {
    let mut group = Group::new("files of sample answers cut at every length");
    let file = file_by_hand();
    for length in 0..=file.len() {
        let whole = length >= MESSAGE_FIELD && (length - MESSAGE_FIELD) % POINT_FIELD == 0;
        let points = length.saturating_sub(MESSAGE_FIELD) / POINT_FIELD;
        let expected = if whole { Checked::Accepted { points } } else { Checked::Refused(Refusal::Layout) };
        group.equal("cut", check(&file[..length]), expected);
    }
    group
}

/// Every byte of tags, lengths, components and counts set to every other value.
fn bytes_changed() -> Group {
    let mut group = Group::new("bytes of sample answers changed");
    let file = file_by_hand();
    let mut changed = |at: usize, expected: &dyn Fn(u8) -> (u8, usize)| {
        for value in (0..=255).filter(|&value| value != file[at]) {
            let mut other = file.clone();
            other[at] = value;
            group.equal(&format!("byte {at} is {value}"), numbers(&other), expected(value));
        }
    };
    let layout: &dyn Fn(u8) -> (u8, usize) = &|_| (24, 0);
    changed(0, layout);
    changed(1, layout);
    // A message of 73 bytes and whole points behind it is a message of a wrong length in a file of the right shape.
    changed(2, &|length| if [101, 129, 157, 185, 213].contains(&length) { (3, 0) } else { (24, 0) });
    for place in 1..=5 {
        let first = MESSAGE_FIELD + (place - 1) * POINT_FIELD;
        (first..first + HEAD).for_each(|at| changed(at, layout));
        changed(first + HEAD, &|_| (25, place));
        (first + 20..first + POINT_FIELD).for_each(|at| changed(at, &|_| (25, place)));
    }
    group
}

/// Messages that are refused, in a file of the right shape and for the writer, with points and without.
fn messages() -> Group {
    let mut group = Group::new("refused messages of sample answers");
    let k = Grid::k().bytes();
    let mut filled = k.clone();
    filled[72] |= 1;
    let long = [&k[..], &[0; 65_535 - 73]].concat();
    let cases = [
        (1, vec![]),
        (1, vec![0x3f]),
        (2, vec![0x3f, 0xc0]),
        (2, vec![0; 73]),
        (3, k[..72].to_vec()),
        (3, [&k[..], &[0]].concat()),
        (3, long),
        (4, filled),
        (5, Grid::k().set(192, 648_001).bytes()),
        (7, Sample::zeros(1021).bytes()),
        (7, Sample::zeros(1022).bytes()),
        (7, Sample::zeros(1025).bytes()),
        (7, Sample::usual(1026).bytes()),
        (7, Sample::usual(1027).bytes()),
    ];
    for (number, message) in cases {
        for claims in [&claims_of_k()[..], &[]] {
            group.equal("checked", numbers(&file_of(&message, claims)), (number, 0));
            group.equal("written", refusal(&message, &points_of(claims)), number);
        }
        let wrong = other_count(&claims_of_k(), 2, 7);
        group.equal("a wrong claim too", numbers(&file_of(&message, &wrong)), (number, 0));
    }
    group
}

/// LAYOUT before the message, the message before the claims, and points without end in the longest file.
fn checker_order() -> Group {
    let mut group = Group::new("refusals of checking sample answers");
    let (k, claims) = (Grid::k().bytes(), claims_of_k());
    group.equal("no point", check(&file_of(&k, &[])), Checked::Accepted { points: 0 });
    let most = as_many(&claims, MOST_POINTS);
    group.equal("1,000 points", check(&file_of(&k, &most)), Checked::Accepted { points: 1_000 });
    for place in [1, 2, 500, 999, 1_000] {
        group.equal("place", numbers(&file_of(&k, &other_count(&most, place, 1))), (25, place));
    }
    let longest = [&k[..], &[0; 65_535 - 73]].concat();
    let file = file_of(&longest, &most);
    group.equal("longest", file.len(), 3 + 65_535 + 28_000);
    group.equal("longest", numbers(&file), (3, 0));
    group.equal("longer", numbers(&[&file[..], &[2]].concat()), (24, 0));
    group.equal("short", numbers(&[1, 0, 0]), (1, 0));
    group
}

/// The order of the writer's refusals, each with all later reasons given too.
fn writer_order() -> Group {
    let mut group = Group::new("refusals of writing sample answers");
    let k = Grid::k().bytes();
    let good = points_of(&as_many(&claims_of_k(), MOST_POINTS));
    let (outside, off) = (height_near(1, [1, 0]), Point { component: 1, ..good[0] });
    let number = |message: &[u8], points: &Points| number_of(&write(message, points, 0));
    let mut bad = good.clone();
    bad.extend([Point { component: 7, position: [i64::MAX; 2] }, outside]);
    let mut unequal = Points::of(&bad);
    unequal.north.pop();
    group.equal("message", number(&[], &unequal), 1);
    group.equal("kind", number(&Sample::zeros(1025).bytes(), &unequal), 7);
    group.equal("counts", number(&k, &unequal), 3);
    group.equal("point 1,001", number(&k, &Points::of(&bad)), 8);
    group.equal("point 1,002", number(&k, &Points::of(&[&good[..], &[good[0], outside]].concat())), 14);
    group.equal("first of two", number(&k, &Points::of(&[good[0], outside, off])), 14);
    group.equal("the other way round", number(&k, &Points::of(&[good[0], off, outside])), 10);
    group.equal("1,001 points", number(&k, &Points::of(&[&good[..], &good[..1]].concat())), 3);
    group.equal("room", number(&k, &Points::of(&good)), 6);
    group.equal("enough", write(&k, &Points::of(&good), 76 + 28_000).map(|file| file.len()), Ok(28_076));
    group.equal("one byte less", write(&k, &Points::of(&good), 76 + 27_999), Err(Refusal::Room));
    group
}

/// Buffers of different counts are LENGTH, whatever the points in them are.
fn counts_of_points() -> Group {
    let mut group = Group::new("counts of points of sample answers");
    let k = Grid::k().bytes();
    for counts in [[0, 1, 1], [1, 0, 1], [1, 1, 0], [5, 5, 4], [4, 5, 5], [5, 6, 5], [0, 0, 1], [1, 0, 0], [3, 2, 1]] {
        for component in [2, 9] {
            let position = Grid::k().origin();
            let points = Points {
                components: vec![component; counts[0]],
                north: vec![position[0]; counts[1]],
                east: vec![position[1]; counts[2]],
            };
            group.equal("unequal", write(&k, &points, usize::MAX), Err(Refusal::Length));
        }
    }
    group.equal("none", write(&k, &Points::of(&[]), 76).map(|file| file.len()), Ok(76));
    group.equal("none and no room", write(&k, &Points::of(&[]), 75), Err(Refusal::Room));
    group
}

/// Any files that are written: accepted, and a bad point named wherever one is put.
fn rounds() -> Group {
    let mut group = Group::new("sample answers written and checked");
    let mut random = Random::new(131);
    for turn in 0..2_000 {
        let grid = random_grid(&mut random, 1023 + turn % 2);
        let message = grid.bytes();
        let wide = grid.spacing().map(|spacing| 3 * spacing / 2);
        let mut points = Vec::new();
        for _ in 0..random.below(8) {
            let steps = wide.map(|half| random.within(-half, half));
            points.push(Point { component: random.below(3) as u8, position: grid.moved(grid.origin(), steps) });
        }
        let Ok(file) = write(&message, &Points::of(&points), usize::MAX) else { continue };
        group.equal("accepted", check(&file), Checked::Accepted { points: points.len() });
        group.equal("message", parts(&file).map(|parts| parts.0), Some(&message[..]));
        let claims = right_claims(&message, &points).expect("points that are answered");
        group.equal("bytes", file, file_of(&message, &claims));
        for place in 1..=claims.len() {
            let other = claims[place - 1].count.wrapping_add(1 + random.below(3) as i64);
            group.equal("bad", numbers(&file_of(&message, &other_count(&claims, place, other))), (25, place));
        }
    }
    group.check(group.made > 5_000, || "too few points are answered".to_string());
    group
}

/// The texts and lines of the two programs.
fn texts() -> Group {
    let mut group = Group::new("texts of sample answers");
    let points = "2 1764000000 396000000\n2 1769400000 390600000\n2 1758600000 401400000\n\
                  2 1765800000 394380000\n2 1765800000 394379999\n";
    let text = format!("{MESSAGE_BY_HAND}\n{points}");
    group.equal("written", written(text.as_bytes()), Ok(file_by_hand()));
    group.equal("empty lines", written(format!("{text}\n\n").as_bytes()), Ok(file_by_hand()));
    group.equal("no newline", written(text.trim_end().as_bytes()), Ok(file_by_hand()));
    group.equal("accepted", checked_line(&file_by_hand()), "accepted 5\n".to_string());
    group.equal("layout", checked_line(&[]), "refused 24\n".to_string());
    let wrong = file_of(&Grid::k().bytes(), &other_count(&claims_of_k(), 3, 0));
    group.equal("claim", checked_line(&wrong), "refused 25 3\n".to_string());
    let bad = |line: usize| Err(format!("bad input: line {line}\n"));
    for (what, text, line) in [("empty", "", 1), ("empty lines", "\n\n", 1), ("digit", "3f0\n", 1), ("word", "x\n", 1)]
    {
        group.equal(what, written(text.as_bytes()), bad(line));
    }
    for line in
        ["", "2", "2 1", "2 1 1 1", "2  1 1", " 2 1 1", "2 1 1 ", "-1 1 1", "256 1 1", "2 +1 1", "2 1 -", "2 1 1x"]
    {
        group.equal(line, written(format!("-\n{line}\n2 1 1\n").as_bytes()), bad(2));
        group.equal(line, written(format!("-\n2 1 1\n{line}\n2 1 1\n-\n").as_bytes()), bad(3));
    }
    group.equal("past 64 bits", written(b"-\n2 9223372036854775808 0"), bad(2));
    group.equal("short", written(b"-\n2 1 1\n"), Err("refused 1\n".to_string()));
    group.equal(
        "least",
        written(format!("{MESSAGE_BY_HAND}\n2 0 -9223372036854775808").as_bytes()),
        Err("refused 9\n".into()),
    );
    group
}
