//! The programs samples and write_samples: a file's check as a line, and the file of a text (document 02, A13; decision D85).

use crate::answers::{check, write, Checked, Point, Points};

/// The line that samples prints of a file.
pub fn checked_line(file: &[u8]) -> String {
    match check(file) {
        Checked::Accepted { points } => format!("accepted {points}\n"),
        Checked::Refused(refusal) => format!("refused {}\n", refusal.number()),
        Checked::Claim { place } => format!("refused 25 {place}\n"),
    }
}

/// The lines of a text without the empty ones at its end.
fn lines(text: &[u8]) -> Vec<&[u8]> {
    let mut lines: Vec<&[u8]> = text.split(|&byte| byte == b'\n').collect();
    while lines.last().is_some_and(|line| line.is_empty()) {
        lines.pop();
    }
    lines
}

/// The value of a lower case hexadecimal digit.
fn digit(byte: u8) -> Option<u8> {
    b"0123456789abcdef".iter().position(|&of| of == byte).map(|value| value as u8)
}

/// The byte that two digits spell.
fn byte_of(digits: &[u8]) -> Option<u8> {
    let &[high, low] = digits else { return None };
    Some(digit(high)? * 16 + digit(low)?)
}

/// The bytes that a line spells in hexadecimal, none for a hyphen.
pub fn message_in(line: &[u8]) -> Option<Vec<u8>> {
    match line {
        b"-" => Some(Vec::new()),
        [] => None,
        _ => line.chunks(2).map(byte_of).collect(),
    }
}

/// A whole number of 64 bits in decimal digits, with a hyphen before a negative one.
fn whole(word: &[u8]) -> Option<i64> {
    let digits = word.strip_prefix(b"-").unwrap_or(word);
    let spells = !digits.is_empty() && digits.iter().all(u8::is_ascii_digit);
    spells.then(|| std::str::from_utf8(word).ok()?.parse().ok())?
}

/// The point that a line spells: component, north and east with single spaces between.
fn point_in(line: &[u8]) -> Option<Point> {
    let words: Vec<&[u8]> = line.split(|&byte| byte == b' ').collect();
    let [component, north, east] = words[..] else { return None };
    let without_sign = component.first() != Some(&b'-');
    let component = u8::try_from(whole(component)?).ok().filter(|_| without_sign)?;
    Some(Point { component, position: [whole(north)?, whole(east)?] })
}

/// The message and the points of a text, or the number of its first bad line, counted from 1.
fn text_parts(text: &[u8]) -> Result<(Vec<u8>, Vec<Point>), usize> {
    let lines = lines(text);
    let message = lines.first().and_then(|line| message_in(line)).ok_or(1usize)?;
    let points = (1..lines.len()).map(|i| point_in(lines[i]).ok_or(i + 1)).collect::<Result<_, usize>>()?;
    Ok((message, points))
}

/// The file that write_samples writes of a text, or the line on standard error.
pub fn written(text: &[u8]) -> Result<Vec<u8>, String> {
    let (message, points) = text_parts(text).map_err(|line| format!("bad input: line {line}\n"))?;
    write(&message, &Points::of(&points), usize::MAX).map_err(|refusal| format!("refused {}\n", refusal.number()))
}
