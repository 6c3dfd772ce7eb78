//! The JSON of docs/DECODE.md: what `tarnoklej decode --json` must print of a stream.

use crate::decode_words::{escaped, fault_words, Counts};
use crate::field_words::Words;
use crate::fields::{by_df, Kind};
use crate::refusal::Refusal;
use crate::shown::shown;
use crate::stream_parts::{entries, fault, known, number_of, pieces, Entry, Fault, Piece};

/// An object of keys and values that are JSON already.
fn object(pairs: &[(&str, String)]) -> String {
    let inside: Vec<String> = pairs.iter().map(|(key, value)| format!("\"{key}\":{value}")).collect();
    format!("{{{}}}", inside.join(","))
}

/// An array of values that are JSON already.
fn array(values: impl IntoIterator<Item = String>) -> String {
    format!("[{}]", values.into_iter().collect::<Vec<_>>().join(","))
}

/// A text without signs that need an escape.
fn plain(text: &str) -> String {
    format!("\"{text}\"")
}

/// A value, or null.
fn or_null(value: Option<String>) -> String {
    value.unwrap_or("null".to_string())
}

/// What a stream is shown as.
pub fn json(stream: &[u8], words: &Words) -> String {
    let mut lines = String::new();
    let mut counts = Counts::default();
    for piece in pieces(stream) {
        lines += &match piece {
            Piece::Outside { at, length } => {
                counts.outside += length;
                object(&[("kind", plain("outside")), ("at", at.to_string()), ("length", length.to_string())])
            }
            Piece::Message { at, framed, bytes } => {
                counts.frames += usize::from(framed);
                message_object(at, framed, bytes, words, &mut counts)
            }
        };
        lines += "\n";
    }
    lines + &end_object(stream.len(), &counts) + "\n"
}

/// The last object.
fn end_object(bytes: usize, counts: &Counts) -> String {
    object(&[
        ("kind", plain("end")),
        ("bytes", bytes.to_string()),
        ("frames", counts.frames.to_string()),
        ("outside", counts.outside.to_string()),
        ("messages", counts.messages.to_string()),
        ("refused", counts.refused.to_string()),
        ("other", counts.other.to_string()),
    ])
}

/// The object of a message.
fn message_object(at: usize, framed: bool, message: &[u8], words: &Words, counts: &mut Counts) -> String {
    let number = number_of(message);
    let name = number.and_then(|number| words.message(number)).map(plain);
    let known = known(message);
    let (kind, rest) = match &known {
        None => ("other", Vec::new()),
        Some(Ok(accepted)) => {
            let fields = array(entries(accepted).iter().map(|entry| field_object(entry, words)));
            ("message", vec![("sin", accepted.sin().to_string()), ("fields", fields)])
        }
        Some(Err(refusal)) => ("refused", refused_pairs(message, *refusal, words)),
    };
    match kind {
        "other" => counts.other += 1,
        "message" => counts.messages += 1,
        _ => counts.refused += 1,
    }
    let mut pairs = vec![
        ("kind", plain(kind)),
        ("at", at.to_string()),
        ("framed", framed.to_string()),
        ("length", message.len().to_string()),
        ("number", or_null(number.map(|number| number.to_string()))),
        ("name", or_null(name)),
    ];
    pairs.extend(rest);
    object(&pairs)
}

/// The keys that every field has first.
fn first_pairs(df: u16, node: Option<usize>, words: &Words) -> Vec<(&'static str, String)> {
    vec![
        ("df", plain(&format!("DF{df:03}"))),
        ("node", or_null(node.map(|node| node.to_string()))),
        ("name", plain(&words.field(df).name)),
    ]
}

/// The object of a field.
fn field_object(entry: &Entry, words: &Words) -> String {
    let mut pairs = first_pairs(entry.df, entry.node, words);
    if by_df(entry.df).kind == Kind::Character {
        let bytes: Vec<u8> = entry.readings.iter().map(|byte| byte.expect("a character") as u8).collect();
        let null = || "null".to_string();
        pairs.push(("raw", array(bytes.iter().map(u8::to_string))));
        pairs.push(("value", escaped(&bytes, |byte| format!("\\u00{byte:02x}"))));
        pairs.extend([("unit", null()), ("sum", null()), ("meaning", null())]);
    } else {
        let shown = shown(entry, words);
        pairs.push(("raw", or_null(shown.raw.map(|raw| raw.to_string()))));
        pairs.push(("value", or_null(shown.value)));
        pairs.push(("unit", or_null(shown.unit.map(plain))));
        pairs.push(("sum", or_null(shown.sum.map(|(_, sum)| sum))));
        pairs.push(("meaning", or_null(shown.meaning.map(|meaning| plain(&meaning)))));
    }
    object(&pairs)
}

/// The keys of a refused message.
fn refused_pairs(message: &[u8], refusal: Refusal, words: &Words) -> Vec<(&'static str, String)> {
    let fault = fault(message, refusal);
    let text = fault_words(&fault, message.len());
    let (mut called, mut unread, mut fill, mut range) = (None, None, Vec::new(), Vec::new());
    match fault {
        Fault::Short => (),
        Fault::Called(length) => called = Some(length.to_string()),
        Fault::Unread(df) => unread = Some(plain(&format!("DF{df:03}"))),
        Fault::Fill(bits) => fill = bits.iter().map(usize::to_string).collect(),
        Fault::Range(fields) => range = fields.iter().map(|&(df, node, raw)| outside(df, node, raw, words)).collect(),
    }
    vec![
        ("refusal", refusal.number().to_string()),
        ("refusal_name", plain(&format!("{refusal:?}").to_uppercase())),
        ("words", plain(&text)),
        ("called", or_null(called)),
        ("unread", or_null(unread)),
        ("fill_bits", array(fill)),
        ("out_of_range", array(range)),
    ]
}

/// The object of a field outside its range.
fn outside(df: u16, node: Option<usize>, raw: i64, words: &Words) -> String {
    let field = by_df(df);
    let mut pairs = first_pairs(df, node, words);
    pairs.push(("raw", raw.to_string()));
    pairs.extend([("smallest", field.least().to_string()), ("greatest", field.greatest().to_string())]);
    object(&pairs)
}
