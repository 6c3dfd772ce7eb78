//! Holds the command's table of fields and its table of messages to the text of source document 000.

use crate::field_words::{cells, ends, entries};
use std::collections::BTreeMap;

/// A line of table 3.4-1: range, resolution, type and notes as printed.
struct Printed<'a> {
    range: &'a str,
    resolution: &'a str,
    data_type: &'a str,
    notes: &'a str,
}

/// A line of a message table: the name, and whether the field stands once for each grid point.
struct Listed<'a> {
    df: &'a str,
    name: &'a str,
    data_type: &'a str,
    of_points: bool,
}

/// What is left of a printed text without the marks of its typesetting, with single blanks.
fn plain(text: &str) -> String {
    let signs = [("\\Delta", "Δ"), ("\\delta", "δ"), ("\\phi", "φ"), ("\\lambda", "λ"), ("\\pm", "±"), ("$", "")];
    let mut text = signs.iter().fold(text.to_string(), |text, (mark, sign)| text.replace(mark, sign));
    while let Some(start) = text.find('<') {
        let end = text[start..].find('>').map_or(text.len(), |length| start + length + 1);
        text.replace_range(start..end, " ");
    }
    text.split_whitespace().collect::<Vec<_>>().join(" ")
}

/// Whether a cell is a data field's number.
fn is_df(cell: &str) -> bool {
    cell.len() == 5 && cell.starts_with("DF") && cell[2..].bytes().all(|digit| digit.is_ascii_digit())
}

/// The lines of table 3.4-1 by data field.
fn printed_fields(text: &str) -> BTreeMap<&str, Printed<'_>> {
    let rows = text.lines().map(|line| line.split('\t').collect::<Vec<_>>());
    rows.filter(|cells| cells.len() >= 6 && is_df(cells[0]))
        .map(|c| (c[0], Printed { range: c[2], resolution: c[3], data_type: c[4], notes: c[5] }))
        .collect()
}

/// The lines of a message's table, 3.5-24 for 1021 and so on.
fn listed_fields(text: &str, number: u16) -> Vec<Listed<'_>> {
    let head = format!("Table 3.5-{}", number - 997);
    let rows = text.lines().skip_while(|line| !line.starts_with(&head)).skip(1);
    rows.take_while(|line| !line.starts_with("Table"))
        .map(|line| line.split('\t').collect::<Vec<_>>())
        .filter(|cells| cells.len() > 3 && is_df(cells[1]))
        .map(|c| Listed { df: c[1], name: c[0], data_type: c[2], of_points: c[3].is_empty() })
        .collect()
}

/// A printed decimal number, with commas between thousands, as units of its last decimal and its number of decimals.
fn number(text: &str) -> Option<(i128, usize)> {
    let digits = text.replace(',', "");
    let (whole, part) = digits.split_once('.').unwrap_or((&digits, ""));
    Some((format!("{whole}{part}").parse().ok()?, part.len()))
}

/// The unit of a printed sign.
fn unit(sign: &str) -> Option<&'static str> {
    match sign {
        "" => Some(""),
        "[\"]" => Some("arc second"),
        "[°]" => Some("degree"),
        "m" => Some("m"),
        "PPM" => Some("ppm"),
        _ => None,
    }
}

/// The least and the greatest value by table 3.3-1's kind of type and the bits in its name.
fn limits_of_type(data_type: &str) -> Option<(i128, i128)> {
    let bits = |text: &str| text.trim_end_matches(')').parse::<u32>().ok();
    if let Some(width) = data_type.strip_prefix("uint").or(data_type.strip_prefix("bit(")) {
        return Some((0, (1 << bits(width)?) - 1));
    }
    if data_type == "char8" {
        return Some((0, 255));
    }
    let greatest = (1i128 << (bits(data_type.strip_prefix("int")?)? - 1)) - 1;
    Some((-greatest, greatest))
}

/// The least and the greatest raw number: the whole steps of the printed range that the type holds.
fn limits(printed: &Printed, data_type: &str) -> Option<(i128, i128)> {
    let (type_least, type_greatest) = limits_of_type(data_type)?;
    let range = plain(printed.range);
    if range.is_empty() {
        return Some((type_least, type_greatest));
    }
    let resolution = plain(printed.resolution);
    let (step, step_decimals) = number(resolution.split(' ').next().filter(|word| !word.is_empty()).unwrap_or("1"))?;
    let last = range.rsplit(['–', '±']).next()?.trim();
    let last = if last.contains('-') { last.rsplit('-').next()? } else { last };
    let (end, end_decimals) = number(last.split(' ').next()?)?;
    let common = step_decimals.max(end_decimals) as u32;
    let scaled = |units: i128, decimals: usize| units * 10i128.pow(common - decimals as u32);
    let greatest = (scaled(end, end_decimals) / scaled(step, step_decimals)).min(type_greatest);
    Some((if range.starts_with('±') { -greatest } else { 0 }, greatest))
}

/// The constant of a note such as `a_S = 6370000 + add a_S`.
fn constant(notes: &str) -> Option<String> {
    let notes = plain(notes);
    notes.match_indices("= ").find_map(|(at, sign)| {
        let behind = &notes[at + sign.len()..];
        let digits: String = behind.chars().take_while(char::is_ascii_digit).collect();
        (!digits.is_empty() && behind[digits.len()..].starts_with(" + ")).then_some(digits)
    })
}

/// A number at the beginning of a text, and what is behind it.
fn leading_number(text: &str) -> Option<(i64, &str)> {
    let length = text.bytes().take_while(u8::is_ascii_digit).count();
    Some((text.get(..length)?.parse().ok()?, &text[length..]))
}

/// The codes that begin a text, `4 =`, `4:` or `4 to 15:`, and the words behind.
fn leading_code(text: &str) -> Option<(i64, i64, &str)> {
    let (first, behind) = leading_number(text)?;
    let (last, behind) = match behind.strip_prefix(" to ") {
        Some(rest) => leading_number(rest)?,
        None => (first, behind),
    };
    let words = behind.trim_start().strip_prefix([':', '='])?;
    Some((first, last, words.trim_start()))
}

/// The codes of a note in order, each with the words up to the next.
fn codes(notes: &str) -> Vec<(i64, i64, String)> {
    let notes = plain(notes);
    let begins = |&(at, _): &(usize, char)| at == 0 || notes[..at].ends_with(' ') && !notes[..at].ends_with(" to ");
    let starts: Vec<usize> = notes
        .char_indices()
        .filter(begins)
        .map(|(at, _)| at)
        .filter(|&at| leading_code(&notes[at..]).is_some())
        .collect();
    let end_of = |index: usize| starts.get(index + 1).copied().unwrap_or(notes.len());
    let code = |(index, &at): (usize, &usize)| {
        let (first, last, words) = leading_code(&notes[at..end_of(index)])?;
        Some((first, last, words.trim_end().to_string()))
    };
    starts.iter().enumerate().filter_map(code).collect()
}

/// The bits of a note: `Bit(1) : 1023` and so on.
fn bits(notes: &str) -> Vec<(i64, i64, String)> {
    let notes = plain(notes);
    let bit = |part: &str| {
        let (number, words) = part.split_once(") : ")?;
        let number = number.parse().ok()?;
        Some((number, number, words.trim().to_string()))
    };
    notes.split("Bit(").filter_map(bit).collect()
}

/// Whether words are the printed ones, or the part of them before a reference, a condition or a formula.
fn words_agree(words: &str, printed: &str) -> bool {
    let Some(left) = printed.strip_prefix(words) else { return false };
    let left = left.trim_start();
    !words.is_empty() && (left.is_empty() || ["(OGP", "(see", "If ", ":"].iter().any(|start| left.starts_with(start)))
}

/// Whether a cell of codes is what is printed.
fn codes_agree(cell: &str, printed: &[(i64, i64, String)]) -> bool {
    let Some(ours) = entries(cell) else { return false };
    let same = |(a, b): (&(i64, i64, String), &(i64, i64, String))| (a.0, a.1) == (b.0, b.1) && words_agree(&a.2, &b.2);
    ours.len() == printed.len() && ours.iter().zip(printed).all(same)
}

/// A data type without the count of characters of a name.
fn without_count(printed: &str) -> String {
    if printed.starts_with("char8(") {
        "char8".to_string()
    } else {
        printed.to_string()
    }
}

/// What differs in one line of the table of fields.
fn line_differences(line: &str, listed: &[Listed], fields: &BTreeMap<&str, Printed>) -> Vec<String> {
    let cells = cells(line);
    let [df, name, data_type, resolution, own_unit, smallest, greatest, base, own_codes, own_bits] = &cells[..] else {
        return vec![format!("not a line of ten cells: {line}")];
    };
    let none = Printed { range: "", resolution: "", data_type, notes: "" };
    let printed = fields.get(df.as_str()).unwrap_or(&none);
    let tables: Vec<&Listed> = listed.iter().filter(|listed| listed.df == df).collect();
    let mut found = Vec::new();
    let mut expect = |column: &str, ours: &str, theirs: String| {
        if ours != theirs {
            found.push(format!("{df} {column}: the table has {ours}, 000 {theirs}"));
        }
    };
    expect("name", name, tables.first().map_or(String::new(), |listed| plain(listed.name)));
    expect("type", data_type, without_count(printed.data_type));
    tables.iter().for_each(|listed| expect("type", data_type, without_count(listed.data_type)));
    let printed_resolution = plain(printed.resolution);
    let (step, sign) = printed_resolution.split_once(' ').unwrap_or((&printed_resolution, ""));
    expect("resolution", resolution, if step.is_empty() { "1".to_string() } else { step.to_string() });
    expect("unit", own_unit, unit(sign).unwrap_or("an unknown unit").to_string());
    let (least, most) = limits(printed, data_type).unwrap_or((1, 0));
    expect("smallest", smallest, least.to_string());
    expect("greatest", greatest, most.to_string());
    expect("base", base, constant(printed.notes).unwrap_or_default());
    let is_bit_field = !bits(printed.notes).is_empty();
    let printed_codes = if is_bit_field { Vec::new() } else { codes(printed.notes) };
    if !codes_agree(own_codes, &printed_codes) {
        found.push(format!("{df} codes: the table has {own_codes}, 000 {printed_codes:?}"));
    }
    if !codes_agree(own_bits, &bits(printed.notes)) {
        found.push(format!("{df} bits: the table has {own_bits}, 000 {:?}", bits(printed.notes)));
    }
    found
}

/// The fields of a message in order, those of the grid points between brackets.
fn order(listed: &[Listed]) -> String {
    let mut words = Vec::new();
    for (index, field) in listed.iter().enumerate() {
        let first = field.of_points && !listed[index - 1].of_points;
        let last = field.of_points && !listed[index + 1].of_points;
        let (open, close) = (if first { "16*(" } else { "" }, if last { ")" } else { "" });
        words.push(format!("{open}{}{close}", field.df));
    }
    words.join(" ")
}

/// The lines that the table of messages must have: those of table 3.2-1, and the fields of 1021 to 1027.
fn message_lines(text: &str) -> Vec<[String; 3]> {
    let rows = text.lines().map(|line| line.split('\t').collect::<Vec<_>>());
    let numbered = rows.filter(|cells| cells.len() >= 3 && ends(cells[0], "-").is_some_and(|(first, _)| first > 1000));
    numbered
        .map(|cells| {
            let fields = match cells[0].parse() {
                Ok(number @ 1021..=1027) => order(&listed_fields(text, number)),
                _ => String::new(),
            };
            [cells[0].to_string(), plain(cells[1]), fields]
        })
        .collect()
}

/// The differences between the two tables and the text of 000, one line each.
pub fn differences(fields: &str, messages: &str, text: &str) -> Vec<String> {
    let printed = printed_fields(text);
    let listed: Vec<Listed> = (1021..=1027).flat_map(|number| listed_fields(text, number)).collect();
    let mut found: Vec<String> =
        fields.lines().skip(1).flat_map(|line| line_differences(line, &listed, &printed)).collect();
    let mut expected: Vec<&str> = listed.iter().map(|listed| listed.df).collect();
    expected.sort_unstable();
    expected.dedup();
    let ours: Vec<String> = fields.lines().skip(1).map(|line| cells(line)[0].clone()).collect();
    if ours != expected {
        found.push(format!("the table has {ours:?}, the message tables of 000 {expected:?}"));
    }
    let ours: Vec<Vec<String>> = messages.lines().skip(1).map(cells).collect();
    let theirs = message_lines(text);
    found.extend(
        ours.iter()
            .filter(|line| !theirs.iter().any(|other| other == &line[..]))
            .map(|line| format!("not in 000: {line:?}")),
    );
    if ours.len() != theirs.len() || ours.len() < 30 {
        found.push(format!("the table has {} messages, table 3.2-1 {}", ours.len(), theirs.len()));
    }
    found
}
