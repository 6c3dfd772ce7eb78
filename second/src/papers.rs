//! Compares the field table and the layouts with the text of source document 000.

use crate::fields::{by_df, Field, Kind, FIELDS};
use crate::layouts::{bits_without_names, layout, Part, NUMBERS};

/// Data types whose limits table 3.3-1 prints wrongly (decisions D1 to D3).
const MISPRINTED_TYPES: [&str; 3] = ["int25", "int26", "uint14"];

/// The differences found, one line each.
pub fn differences(text: &str) -> Vec<String> {
    let mut found = field_differences(text);
    found.extend(message_differences(text));
    found.extend(total_differences(text));
    found.extend(type_differences(text));
    found
}

/// A cell of a table without the marks of its typesetting and without blanks.
fn plain(cell: &str) -> String {
    let marks = [
        ("$", ""),
        ("\\pm", "±"),
        ("\\Delta", "Δ"),
        ("\\delta", "δ"),
        ("\\Phi", "Φ"),
        ("\\phi", "φ"),
        ("\\Lambda", "Λ"),
        ("\\lambda", "λ"),
        (" ", ""),
    ];
    marks.iter().fold(cell.to_string(), |text, (mark, sign)| text.replace(mark, sign))
}

/// The data field number of a cell such as DF152.
fn df_number(cell: &str) -> Option<u16> {
    cell.strip_prefix("DF")?.parse().ok()
}

/// Compares one column of a field's line.
fn compare(df: u16, column: &str, printed: &str, ours: &str) -> Option<String> {
    (plain(printed) != plain(ours)).then(|| format!("DF{df} {column}: 000 prints {printed}, our table {ours}"))
}

/// A data type without the count of characters of a name.
fn type_name(printed: &str) -> &str {
    if printed.starts_with("char8") {
        "char8"
    } else {
        printed
    }
}

/// Differences between table 3.4-1 and our field table.
fn field_differences(text: &str) -> Vec<String> {
    let mut found = Vec::new();
    let mut seen = Vec::new();
    for cells in text.lines().map(|line| line.split('\t').collect::<Vec<_>>()) {
        let Some(df) = df_number(cells[0]) else { continue };
        if cells.len() < 5 {
            continue;
        }
        seen.push(df);
        let field = by_df(df);
        found.extend(compare(df, "name", cells[1], field.symbol));
        found.extend(compare(df, "range", cells[2], field.printed_range));
        found.extend(compare(df, "resolution", cells[3], field.printed_resolution));
        found.extend(compare(df, "type", type_name(cells[4]), &field.data_type()));
    }
    let expected: Vec<u16> = FIELDS.iter().map(|f| f.df).filter(|&df| df >= 143).collect();
    if seen != expected {
        found.push(format!("table 3.4-1 lists {seen:?}"));
    }
    found
}

/// The fields of a layout as a message table lists them, nodes once.
fn listed(number: u16) -> Vec<u16> {
    let mut list = Vec::new();
    for part in layout(number as i64).expect("a known number") {
        match *part {
            Part::One(df) => list.push(df),
            Part::Name { counter, character } => list.extend([counter, character]),
            Part::SixteenPoints(three) => list.extend(three),
        }
    }
    list
}

/// The lines of one message table.
fn message_table(text: &str, number: u16) -> Vec<Vec<&str>> {
    let head = format!("Table 3.5-{}", 24 + number - 1021);
    let rows = text.lines().skip_while(|line| !line.starts_with(&head)).skip(1);
    rows.take_while(|line| !line.starts_with("Table")).map(|line| line.split('\t').collect()).collect()
}

/// Differences between the message tables and our layouts.
fn message_differences(text: &str) -> Vec<String> {
    let mut found = Vec::new();
    for number in NUMBERS {
        let rows: Vec<Vec<&str>> =
            message_table(text, number).into_iter().filter(|c| c.len() > 3 && df_number(c[1]).is_some()).collect();
        let printed: Vec<u16> = rows.iter().filter_map(|c| df_number(c[1])).collect();
        if printed != listed(number) {
            found.push(format!("message {number}: 000 lists {printed:?}"));
        }
        for cells in &rows {
            found.extend(entry_difference(number, cells));
        }
        found.extend(points_difference(text, number));
    }
    found
}

/// The three data fields that a message has for each of sixteen points, if it has them.
fn points(number: u16) -> Option<[u16; 3]> {
    layout(number as i64).expect("a known number").iter().find_map(|part| match *part {
        Part::SixteenPoints(three) => Some(three),
        _ => None,
    })
}

/// The number of bits that a message table prints beside a field: none for the points, whose bits stand above them.
fn printed_width(number: u16, field: &Field) -> String {
    match field.df {
        144 => "8*N".to_string(),
        146 => "8*M".to_string(),
        df if points(number).is_some_and(|three| three.contains(&df)) => String::new(),
        _ => field.width.to_string(),
    }
}

/// Compares the line that gives the bits of all points of a message.
fn points_difference(text: &str, number: u16) -> Option<String> {
    let [a, b, c] = points(number)?.map(|df| by_df(df).width);
    let expected = format!("16*({a}+{b}+{c})");
    let printed = message_table(text, number).iter().any(|cells| cells.get(3) == Some(&expected.as_str()));
    (!printed).then(|| format!("message {number}: 000 does not print {expected}"))
}

/// Whether a line that begins with a word has a cell in a column.
fn prints(lines: &[Vec<&str>], first: &str, column: usize, cell: &str) -> bool {
    lines.iter().any(|cells| cells[0] == first && cells.get(column).is_some_and(|printed| plain(printed) == cell))
}

/// Differences between the totals of bits (message tables) and of bytes (table 3.2-1) and our layouts.
fn total_differences(text: &str) -> Vec<String> {
    let lines: Vec<Vec<&str>> = text.lines().map(|line| line.split('\t').collect()).collect();
    let mut found = Vec::new();
    for number in NUMBERS {
        let (bits_of_names, bytes_of_names) = if number < 1023 { ("+8*N+8*M", "+N+M") } else { ("", "") };
        let bits = format!("{}{bits_of_names}", bits_without_names(number));
        let bytes = format!("{}{bytes_of_names}", f64::from(bits_without_names(number)) / 8.0);
        if !prints(&message_table(text, number), "TOTAL", 3, &bits) {
            found.push(format!("message {number}: 000 does not print {bits} bits"));
        }
        if !prints(&lines, &number.to_string(), 2, &bytes) {
            found.push(format!("message {number}: table 3.2-1 does not print {bytes} bytes"));
        }
    }
    found
}

/// Compares type, width and name of one line of a message table.
fn entry_difference(number: u16, cells: &[&str]) -> Option<String> {
    let field: &Field = by_df(df_number(cells[1])?);
    let right_type = type_name(cells[2]) == field.data_type();
    let right_width = cells[3] == printed_width(number, field);
    let right_name = cells[0].ends_with(field.name);
    (!(right_type && right_width && right_name)).then(|| format!("message {number}: 000 prints {cells:?}"))
}

/// Differences between the limits of table 3.3-1 and the widths, besides the known misprints.
fn type_differences(text: &str) -> Vec<String> {
    let mut found = Vec::new();
    for field in FIELDS {
        let name = type_in_table(field);
        let Some(cells) = type_line(text, &name) else {
            found.push(format!("table 3.3-1 has no line for {name} (DF{})", field.df));
            continue;
        };
        if right_limits(field, cells[2]) == MISPRINTED_TYPES.contains(&name.as_str()) {
            found.push(format!("table 3.3-1 prints {} for {name}", cells[2]));
        }
    }
    found
}

/// The name of a field's data type in table 3.3-1.
fn type_in_table(field: &Field) -> String {
    match field.kind {
        Kind::Bits => "bit(n)".to_string(),
        Kind::Character => "char8(n)".to_string(),
        Kind::Unsigned | Kind::Signed => field.data_type(),
    }
}

/// Whether the range that table 3.3-1 prints is that of the field's width.
fn right_limits(field: &Field, printed: &str) -> bool {
    let digits = |text: &str| text.chars().filter(char::is_ascii_digit).collect::<String>();
    match field.kind {
        Kind::Bits => printed == "0 or 1, each bit",
        Kind::Character => printed == "character set",
        Kind::Unsigned => {
            plain(printed).starts_with("0to") && digits(printed) == format!("0{}", field.width_greatest())
        }
        Kind::Signed => plain(printed).starts_with('±') && digits(printed) == field.width_greatest().to_string(),
    }
}

/// The line of a data type in table 3.3-1.
fn type_line<'a>(text: &'a str, name: &str) -> Option<Vec<&'a str>> {
    text.lines().map(|line| line.split('\t').collect::<Vec<_>>()).find(|cells| cells[0] == name && cells.len() > 2)
}
