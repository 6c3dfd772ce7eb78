//! The page docs/FIELDS.md, printed from the field table.

use crate::fields::{Field, Kind, FIELDS};
use crate::layouts::{fields_in_order, NUMBERS};

/// The head of the page.
const HEAD: &str = "# The data fields

Every data field of messages 1021 to 1027, as the reader and the writer take it.
\"Printed\" is what table 3.4-1 of source document 000 prints for range and resolution.
The range is that of a field's values, in whole numbers of its resolution. A signed field can also have no value: it is then sent as the number
in the column \"Sent for none\", the most negative one of its width, which is no value. All other fields always have a value.
The last column says whether document 01, table 3.3-1 and table 3.4-1 agree, or names the decision in docs/DECISIONS.md.
The page is printed by `second fields`, and `second papers` compares the same table with the text of source document 000.

| DF | Name | Messages | Bits | Type | Range | Sent for none | Resolution | Printed range | Printed resolution | Agreement |
|---|---|---|---|---|---|---|---|---|---|---|
";

/// The messages that use a field.
fn messages(field: &Field) -> String {
    let using: Vec<u16> = NUMBERS.into_iter().filter(|&n| fields_in_order(n, [1, 1]).contains(&field.df)).collect();
    if using.len() == NUMBERS.len() {
        return "all".to_string();
    }
    using.iter().map(u16::to_string).collect::<Vec<_>>().join(", ")
}

/// A whole number with commas between its thousands.
pub fn grouped(value: i64) -> String {
    let digits = value.abs().to_string();
    let first = digits.len() % 3;
    let mut parts: Vec<&str> = if first > 0 { vec![&digits[..first]] } else { vec![] };
    parts.extend((first..digits.len()).step_by(3).map(|at| &digits[at..at + 3]));
    format!("{}{}", if value < 0 { "-" } else { "" }, parts.join(","))
}

/// The name of a field, with the sign of table 3.4-1 where it has one.
fn title(field: &Field) -> String {
    if field.symbol.is_empty() || field.symbol == field.name {
        return field.name.to_string();
    }
    format!("{} ({})", field.name, field.symbol)
}

/// The resolution with its unit written out.
pub fn resolution(field: &Field) -> String {
    if field.printed_resolution.is_empty() {
        return "1".to_string();
    }
    if field.printed_resolution == "2 [\"]" {
        return "2 arc seconds".to_string();
    }
    field.printed_resolution.replace("[\"]", "arc second").replace("[°]", "degree").replace("PPM", "ppm")
}

/// A printed cell, a dash where the table prints nothing.
fn printed(cell: &str) -> &str {
    if cell.is_empty() {
        "-"
    } else {
        cell
    }
}

/// The data type, a name's being one character of it.
fn data_type(field: &Field) -> String {
    match field.kind {
        Kind::Character => "char8, each".to_string(),
        _ => field.data_type(),
    }
}

/// What is to be said on the agreement of the papers.
fn agreement(df: u16) -> &'static str {
    match df {
        2 => "D10: only in the message tables of 000; others than 1021 to 1027 are refused as NUMBER",
        51 => "D10: only in the message tables of 000",
        147 => "agree; 003 speaks of 1 to 256 (D16)",
        144 => "agree; all byte values are carried (D14)",
        146 => "D8: char8(N) in table 3.4-1, char8(M) in tables 3.5-24 and 3.5-25; all byte values are carried (D14)",
        148 => "D9: reserved bits are carried; D15: which end Bit(1) is",
        149 | 150 | 151 | 170 => "agree; reserved codes are carried (D9)",
        212 | 213 => "agree; reserved code 3 is carried (D9)",
        152 | 153 => "ranges agree; D11: the note says degrees",
        154 | 155 => "D3: table 3.3-1 prints 0 to 8191 for uint14; D11: the note says degrees; D17: 0 is carried",
        162 => "D1: table 3.3-1 prints ±16,777,203 for int25",
        163..=165 => "D4: the printed range is one step more than int35 holds",
        166..=169 => "agree; D12: range printed without its unit; D17: 0 is carried",
        171 | 172 | 176..=179 | 183 | 184 => "D7: the printed range is not a whole number of steps",
        185 => "D7: the printed range is not a whole number of steps; it always has a value",
        186 => "D2: table 3.3-1 prints ±33,554,407 for int26",
        192 | 193 => "ranges agree; D11: the note says degrees; D13: the origin is the middle of the grid",
        194 | 195 => "agree; D11: the note says degrees; D13: \"extension\" is the spacing of nodes; D17: 0 is carried",
        204 | 205 => "agree; D13: \"extension\" is the spacing of nodes; D17: 0 is carried",
        198 | 208 => "D5: the printed range is one step more than int15 holds",
        202 => "D1: table 3.3-1 prints ±16,777,203 for int25; D13: the origin is the middle of the grid",
        203 => "agree; D13: the origin is the middle of the grid; D34: it always has a value",
        206 | 207 => "D6: 0.01 m, so the mean's factor is 100 and not document 01's 10",
        _ => "agree",
    }
}

/// One line of the page.
fn line(field: &Field) -> String {
    let sent_for_none = field.not_available().map_or("-".to_string(), grouped);
    format!(
        "| DF{:03} | {} | {} | {} | {} | {} to {} | {} | {} | {} | {} | {} |\n",
        field.df,
        title(field),
        messages(field),
        field.width,
        data_type(field),
        grouped(field.least()),
        grouped(field.greatest()),
        sent_for_none,
        resolution(field),
        printed(field.printed_range),
        printed(field.printed_resolution),
        agreement(field.df),
    )
}

/// The whole page.
pub fn page() -> String {
    let lines: String = FIELDS.iter().map(line).collect();
    format!("{HEAD}{lines}")
}
