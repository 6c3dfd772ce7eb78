//! A field as docs/DECODE.md shows it: raw number, exact value, unit, sum and meaning.

use crate::field_words::Words;
use crate::fields::by_df;
use crate::stream_parts::Entry;

/// A field to be shown.
pub struct Shown {
    /// The raw number, or none.
    pub raw: Option<i64>,
    /// The value as a decimal text, or none.
    pub value: Option<String>,
    /// The unit.
    pub unit: Option<&'static str>,
    /// The constant that the field is added to, and the sum of both.
    pub sum: Option<(i64, String)>,
    /// What there is to say.
    pub meaning: Option<String>,
}

/// The constants of the notes of table 3.4-1: 6370000 + add a, 6350000 + add b, 993000 + add SNO or add SIL.
fn constant(df: u16) -> Option<i64> {
    match df {
        166 | 168 => Some(6_370_000),
        167 | 169 => Some(6_350_000),
        173 | 187 => Some(993_000),
        _ => None,
    }
}

/// The resolution of table 3.4-1 as the number of units of its last decimal, and how many decimals there are.
fn resolution(df: u16) -> (i128, usize) {
    let printed = by_df(df).printed_resolution;
    let number = if printed.is_empty() { "1" } else { printed.split(' ').next().expect("a first word") };
    let (whole, part) = number.split_once('.').unwrap_or((number, ""));
    (format!("{whole}{part}").parse().expect("a printed number"), part.len())
}

/// The unit of table 3.4-1.
pub fn unit(df: u16) -> Option<&'static str> {
    let printed = by_df(df).printed_resolution;
    match printed.split_once(' ')?.1 {
        "[\"]" => Some("arc second"),
        "[°]" => Some("degree"),
        "m" => Some("m"),
        "PPM" => Some("ppm"),
        other => unreachable!("no unit {other} is printed"),
    }
}

/// A number of units of the last decimal as a text with decimals.
pub fn decimal(units: i128, decimals: usize) -> String {
    let digits = format!("{:0width$}", units.unsigned_abs(), width = decimals + 1);
    let (whole, part) = digits.split_at(digits.len() - decimals);
    let sign = if units < 0 { "-" } else { "" };
    if decimals == 0 {
        format!("{sign}{whole}")
    } else {
        format!("{sign}{whole}.{part}")
    }
}

/// Degrees, minutes and seconds of a field in arc seconds.
fn sexagesimal(units: i128, decimals: usize) -> String {
    let second = 10i128.pow(decimals as u32);
    let size = units.abs();
    let (minutes, rest) = (size / (60 * second), size % (60 * second));
    let width = if decimals == 0 { 2 } else { 3 + decimals };
    let seconds = format!("{:0>width$}", decimal(rest, decimals));
    let sign = if units < 0 { "-" } else { "" };
    format!("{sign}{}°{:02}′{seconds}″", minutes / 60, minutes % 60)
}

/// Whether a year of the Gregorian calendar has a 29th of February.
fn is_leap(year: i64) -> bool {
    year % 4 == 0 && (year % 100 != 0 || year % 400 == 0)
}

/// The date of a modified Julian day, counted on from day 0, the 17th of November 1858.
fn date(day: i64) -> String {
    let (mut year, mut month, mut rest) = (1858, 11, 16 + day);
    loop {
        let length = match month {
            4 | 6 | 9 | 11 => 30,
            2 if is_leap(year) => 29,
            2 => 28,
            _ => 31,
        };
        if rest < length {
            return format!("{year:04}-{month:02}-{:02}", rest + 1);
        }
        rest -= length;
        (year, month) = if month == 12 { (year + 1, 1) } else { (year, month + 1) };
    }
}

/// The messages of DF148, the first bit sent being Bit(1); a reserved bit by its own name.
fn utilized(raw: i64, words: &[String]) -> String {
    let set = (1..=10).filter(|bit| raw >> (10 - bit) & 1 == 1);
    let named: Vec<String> =
        set.map(|bit| if bit <= 5 { words[bit - 1].clone() } else { format!("Bit({bit})") }).collect();
    if named.is_empty() {
        "none".to_string()
    } else {
        named.join(", ")
    }
}

/// What there is to say about a number.
fn meaning(df: u16, raw: i64, words: &Words) -> Option<String> {
    let (step, decimals) = resolution(df);
    match df {
        51 => Some(date(raw)),
        148 => Some(utilized(raw, &words.field(df).bits)),
        _ if words.code(df, raw).is_some() => words.code(df, raw).map(str::to_string),
        152..=155 | 192..=195 => Some(sexagesimal(raw as i128 * step, decimals)),
        _ => None,
    }
}

/// The constant and the sum of a field that is added to one, unless 0 means undefined.
fn sum(df: u16, raw: i64) -> Option<(i64, String)> {
    let base = constant(df).filter(|_| raw != 0 || df > 169)?;
    let (step, decimals) = resolution(df);
    Some((base, decimal(base as i128 * 10i128.pow(decimals as u32) + raw as i128 * step, decimals)))
}

/// A field that is no name, as it is shown.
pub fn shown(entry: &Entry, words: &Words) -> Shown {
    let df = entry.df;
    let Some(raw) = entry.readings[0] else {
        return Shown { raw: None, value: None, unit: unit(df), sum: None, meaning: Some("not available".to_string()) };
    };
    let (step, decimals) = resolution(df);
    Shown {
        raw: Some(raw),
        value: Some(decimal(raw as i128 * step, decimals)),
        unit: unit(df),
        sum: sum(df, raw),
        meaning: meaning(df, raw, words),
    }
}
