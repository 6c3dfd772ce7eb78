//! Messages as text for people: a line for each message, and one for each of its fields.

use crate::fault::{counted, Fault};
use crate::library::Refusal;
use crate::shown::{Counts, Head, Printer};
use crate::tables::{Field, Kind, Message, Slot, Tables};
use crate::value::{meaning, push_value, quoted, sum, NOT_AVAILABLE};
use std::fmt::Write;

/// The columns of a raw number.
const RAW_WIDTH: usize = 12;

/// The text form, with the labels of each known message, filled up to the same width.
pub struct Text {
    labels: Vec<(u16, Vec<String>)>,
    bare: bool,
}

impl Text {
    /// The text form by the tables.
    pub fn new(tables: &Tables) -> Text {
        let known = tables.messages.iter().filter(|message| !message.slots.is_empty());
        Text { labels: known.map(|message| (message.first, labels(tables, message))).collect(), bare: false }
    }

    /// The label of the field of a message at a place.
    fn label(&self, number: u16, place: usize) -> &str {
        let found = self.labels.iter().find(|labels| labels.0 == number);
        found.map_or("", |labels| labels.1[place].as_str())
    }
}

/// The labels of a message's fields: DF number and name, filled up to the same width.
fn labels(tables: &Tables, message: &Message) -> Vec<String> {
    let named = |slot: &Slot| {
        let name = &tables.fields[slot.field].name;
        slot.node.map_or(name.clone(), |node| format!("{name}, node {node}"))
    };
    let width = message.slots.iter().map(|slot| named(slot).chars().count()).max().unwrap_or(0);
    message.slots.iter().map(|slot| format!("  {}  {:width$}", tables.fields[slot.field].df, named(slot))).collect()
}

/// Number, name, place and length of a message.
fn push_head(out: &mut String, head: &Head) {
    match (head.number, head.name) {
        (None, _) => out.push_str("no number"),
        (Some(number), None) => push(out, format_args!("{number}")),
        (Some(number), Some(name)) => push(out, format_args!("{number} {name}")),
    }
    match head.framed {
        true => push(out, format_args!(": frame at {}", head.at)),
        false => out.push_str(": bare message"),
    }
    push(out, format_args!(", {}", counted(head.length as u64, "byte")));
}

/// Appends a text.
fn push(out: &mut String, text: std::fmt::Arguments) {
    out.write_fmt(text).expect("a string takes all that is written");
}

/// The unit as it stands behind a number.
fn plural(unit: &str) -> &str {
    match unit {
        "arc second" => "arc seconds",
        "degree" => "degrees",
        other => other,
    }
}

/// Appends the columns of a number.
fn push_number(out: &mut String, field: &Field, raw: Option<i64>) {
    let Some(raw) = raw else {
        return push(out, format_args!("  {:>RAW_WIDTH$}  {NOT_AVAILABLE}", "-"));
    };
    push(out, format_args!("  {raw:>RAW_WIDTH$}"));
    if let Some(unit) = &field.unit {
        out.push_str("  ");
        push_value(out, field, raw);
        push(out, format_args!(" {}", plural(unit)));
        if let Some((base, sum)) = sum(field, raw) {
            push(out, format_args!("  with {base} {unit}: {sum} {unit}"));
        }
    }
    if let Some(words) = meaning(field, raw) {
        push(out, format_args!("  {words}"));
    }
}

/// Appends the columns of a name: its text and its bytes.
fn push_name(out: &mut String, row: &[Option<i64>]) {
    let bytes = || row.iter().map(|byte| byte.unwrap_or(0) as u8);
    push(out, format_args!("  {:RAW_WIDTH$}  {}", "", quoted(bytes(), |byte| format!("\\x{byte:02x}"))));
    for (place, byte) in bytes().enumerate() {
        push(out, format_args!("{}{byte:02x}", if place == 0 { "  " } else { " " }));
    }
}

impl Printer for Text {
    fn outside(&mut self, out: &mut String, at: u64, length: u64) {
        push(out, format_args!("{} outside frames at {at}\n", counted(length, "byte")));
    }

    fn other(&mut self, out: &mut String, head: &Head) {
        push_head(out, head);
        out.push('\n');
    }

    fn message(
        &mut self,
        out: &mut String,
        tables: &Tables,
        layout: &Message,
        head: &Head,
        sin: u8,
        row: &[Option<i64>],
    ) {
        self.bare |= !head.framed;
        push_head(out, head);
        push(out, format_args!(", SIN {sin}\n"));
        let mut at = 0;
        for (place, slot) in layout.slots.iter().enumerate() {
            let field = &tables.fields[slot.field];
            out.push_str(self.label(layout.first, place));
            if field.kind == Kind::Name {
                let count = row[at - 1].unwrap_or(0) as usize;
                push_name(out, &row[at..at + count]);
                at += count;
            } else {
                push_number(out, field, row[at]);
                at += 1;
            }
            out.push('\n');
        }
    }

    fn refused(&mut self, out: &mut String, tables: &Tables, head: &Head, refusal: Refusal, fault: &Fault) {
        self.bare |= !head.framed;
        push_head(out, head);
        let words = fault.words(tables, head.length);
        push(out, format_args!(", refused {} {}: {words}\n", refusal.number(), refusal.name()));
        let layout = head.number.and_then(|number| tables.message(number));
        for outside in &fault.out_of_range {
            let same = |slot: &Slot| slot.field == outside.slot.field && slot.node == outside.slot.node;
            let place = layout.and_then(|layout| layout.slots.iter().position(same)).unwrap_or(0);
            let field = &tables.fields[outside.slot.field];
            let (label, raw) = (self.label(head.number.unwrap_or(0), place), outside.raw);
            let range = format_args!("outside {} to {}", field.smallest, field.greatest).to_string();
            push(out, format_args!("{label}  {raw:>RAW_WIDTH$}  {range}\n"));
        }
    }

    fn end(&mut self, out: &mut String, _bytes: u64, counts: &Counts) {
        match self.bare {
            true => out.push_str("no frames, one bare message"),
            false => {
                let (frames, outside) = (counted(counts.frames, "frame"), counted(counts.outside, "byte"));
                push(out, format_args!("{frames}, {outside} outside frames"));
            }
        }
        let Counts { messages, refused, other, .. } = counts;
        push(out, format_args!("; {messages} read, {refused} refused, {}\n", counted(*other, "other")));
    }
}
