//! The text of docs/DECODE.md: what `tarnoklej decode` must print of a stream.

use crate::decode_words::{bytes, counted, escaped, fault_words, Counts};
use crate::field_words::Words;
use crate::fields::{by_df, Kind};
use crate::layouts::fields_in_order;
use crate::message::Message;
use crate::refusal::Refusal;
use crate::shown::shown;
use crate::stream_parts::{entries, fault, known, number_of, pieces, Entry, Fault, Piece};

/// The columns of a raw number.
const RAW_WIDTH: usize = 12;

/// What a stream is shown as.
pub fn text(stream: &[u8], words: &Words) -> String {
    let mut text = String::new();
    let mut counts = Counts::default();
    let mut bare = false;
    for piece in pieces(stream) {
        match piece {
            Piece::Outside { at, length } => {
                counts.outside += length;
                text += &format!("{} outside frames at {at}\n", bytes(length));
            }
            Piece::Message { at, framed, bytes } => {
                counts.frames += usize::from(framed);
                bare |= !framed;
                text += &message_text(at, framed, bytes, words, &mut counts);
            }
        }
    }
    text + &end_line(&counts, bare)
}

/// The last line.
fn end_line(counts: &Counts, bare: bool) -> String {
    let Counts { frames, outside, messages, refused, other } = counts;
    let first = match bare {
        true => "no frames, one bare message".to_string(),
        false => format!("{}, {} outside frames", counted(*frames, "frame"), bytes(*outside)),
    };
    format!("{first}; {messages} read, {refused} refused, {}\n", counted(*other, "other"))
}

/// The lines of a message.
fn message_text(at: usize, framed: bool, message: &[u8], words: &Words, counts: &mut Counts) -> String {
    let head = head(at, framed, message, words);
    match known(message) {
        None => {
            counts.other += 1;
            format!("{head}\n")
        }
        Some(Ok(accepted)) => {
            counts.messages += 1;
            format!("{head}, SIN {}\n{}", accepted.sin(), field_lines(&accepted, words))
        }
        Some(Err(refusal)) => {
            counts.refused += 1;
            format!("{head}{}", refused_lines(message, refusal, words))
        }
    }
}

/// Number, name, place and length of a message.
fn head(at: usize, framed: bool, message: &[u8], words: &Words) -> String {
    let named = match number_of(message) {
        None => "no number".to_string(),
        Some(number) => words.message(number).map_or(format!("{number}"), |name| format!("{number} {name}")),
    };
    let place = if framed { format!("frame at {at}") } else { "bare message".to_string() };
    format!("{named}: {place}, {}", bytes(message.len()))
}

/// The name of a field, with its node.
fn label(df: u16, node: Option<usize>, words: &Words) -> String {
    let name = &words.field(df).name;
    node.map_or(name.clone(), |node| format!("{name}, node {node}"))
}

/// The columns of the longest label of a message; the last node has the longest number.
fn label_width(number: i64, words: &Words) -> usize {
    let of = |df: u16| {
        let node = (199..=201).contains(&df) || (209..=211).contains(&df);
        label(df, node.then_some(16), words).chars().count()
    };
    fields_in_order(number as u16, [1, 1]).into_iter().map(of).max().expect("a message has fields")
}

/// The lines of all fields.
fn field_lines(message: &Message, words: &Words) -> String {
    let width = label_width(i64::from(message.number), words);
    entries(message).iter().map(|entry| field_line(entry, width, words)).collect()
}

/// The line of a field.
fn field_line(entry: &Entry, width: usize, words: &Words) -> String {
    let label = label(entry.df, entry.node, words);
    let (raw, behind) = if by_df(entry.df).kind == Kind::Character {
        (String::new(), name_columns(entry))
    } else {
        number_columns(entry, words)
    };
    let line = format!("  DF{:03}  {label:width$}  {raw:>RAW_WIDTH$}  {}", entry.df, behind.join("  "));
    format!("{}\n", line.trim_end())
}

/// The columns of a name: its text and its bytes.
fn name_columns(entry: &Entry) -> Vec<String> {
    let bytes: Vec<u8> = entry.readings.iter().map(|byte| byte.expect("a character") as u8).collect();
    let numbers = bytes.iter().map(|byte| format!("{byte:02x}")).collect::<Vec<_>>().join(" ");
    vec![escaped(&bytes, |byte| format!("\\x{byte:02x}")), numbers]
}

/// The unit as it stands behind a number.
fn plural(unit: &str) -> &str {
    match unit {
        "arc second" => "arc seconds",
        "degree" => "degrees",
        other => other,
    }
}

/// The raw number and the columns behind it.
fn number_columns(entry: &Entry, words: &Words) -> (String, Vec<String>) {
    let shown = shown(entry, words);
    let raw = shown.raw.map_or("-".to_string(), |raw| raw.to_string());
    let mut columns = Vec::new();
    if let (Some(value), Some(unit)) = (&shown.value, shown.unit) {
        columns.push(format!("{value} {}", plural(unit)));
    }
    if let (Some((constant, sum)), Some(unit)) = (&shown.sum, shown.unit) {
        columns.push(format!("with {constant} {unit}: {sum} {unit}"));
    }
    columns.extend(shown.meaning);
    (raw, columns)
}

/// What stands behind the head of a refused message, and a line for each field outside its range.
fn refused_lines(message: &[u8], refusal: Refusal, words: &Words) -> String {
    let fault = fault(message, refusal);
    let name = format!("{refusal:?}").to_uppercase();
    let mut lines = format!(", refused {} {name}: {}\n", refusal.number(), fault_words(&fault, message.len()));
    if let Fault::Range(fields) = fault {
        let width = label_width(number_of(message).expect("a number"), words);
        for (df, node, raw) in fields {
            let (label, field) = (label(df, node, words), by_df(df));
            let range = format!("outside {} to {}", field.least(), field.greatest());
            lines += &format!("  DF{df:03}  {label:width$}  {raw:>RAW_WIDTH$}  {range}\n");
        }
    }
    lines
}
