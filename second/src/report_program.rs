//! The program report: the numbers of a report over the points in a text, one a line (document 02, A10; docs/REPORT.md).

use crate::report::{report, Point};

/// The most bytes of a line, and of the message in the first one (decision D77).
pub const LONGEST_LINE: usize = 900;
pub const LONGEST_MESSAGE: usize = 400;

/// What the program is asked for.
struct Asked {
    message: Vec<u8>,
    component: u8,
    points: Vec<Point>,
}

/// The value of a lower case hexadecimal digit.
fn digit(character: u8) -> Option<u8> {
    b"0123456789abcdef".iter().position(|&digit| digit == character).map(|value| value as u8)
}

/// The message of the first line, a hyphen being that of no bytes.
fn message_in(line: &str) -> Option<Vec<u8>> {
    if line == "-" {
        return Some(Vec::new());
    }
    let digits: Vec<u8> = line.bytes().map(digit).collect::<Option<_>>()?;
    let whole = !digits.is_empty() && digits.len().is_multiple_of(2) && digits.len() <= 2 * LONGEST_MESSAGE;
    whole.then(|| digits.chunks(2).map(|pair| 16 * pair[0] + pair[1]).collect())
}

/// A whole number in decimal digits, with a hyphen before a negative one, that its type holds.
fn number<T: std::str::FromStr>(word: &str) -> Option<T> {
    if word.starts_with('+') {
        return None;
    }
    word.parse().ok()
}

/// The point of a line: two numbers with one space between them.
fn point_in(line: &str) -> Option<Point> {
    let (north, east) = line.split_once(' ')?;
    Some([number(north)?, number(east)?])
}

/// The lines of a text, without the empty ones at its end.
fn lines(text: &[u8]) -> Vec<&[u8]> {
    let mut lines: Vec<&[u8]> = text.split(|&byte| byte == b'\n').collect();
    while lines.last().is_some_and(|line| line.is_empty()) {
        lines.pop();
    }
    lines
}

/// What a text asks for, or the number of its first bad line, from 1; a line that is missing is a bad one.
fn asked(text: &[u8]) -> Result<Asked, usize> {
    let lines = lines(text);
    let line = |place: usize| {
        let short = lines.get(place).filter(|line| line.len() <= LONGEST_LINE);
        short.and_then(|line| std::str::from_utf8(line).ok()).ok_or(place + 1)
    };
    let message = message_in(line(0)?).ok_or(1usize)?;
    let component = number(line(1)?).ok_or(2usize)?;
    let points = (2..lines.len()).map(|place| point_in(line(place)?).ok_or(place + 1)).collect::<Result<_, usize>>()?;
    Ok(Asked { message, component, points })
}

/// What the program prints of a text.
pub fn printed(text: &[u8]) -> String {
    match asked(text) {
        Err(line) => format!("bad input: line {line}\n"),
        Ok(asked) => match report(&asked.message, asked.component, &asked.points) {
            Err(refusal) => format!("refused {}\n", refusal.number()),
            Ok(report) => report.numbers().iter().map(|number| format!("{number}\n")).collect(),
        },
    }
}
