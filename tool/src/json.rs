//! Messages as JSON, one object to a line; docs/DECODE.md lists the keys.

use crate::fault::Fault;
use crate::library::Refusal;
use crate::shown::{Counts, Head, Printer};
use crate::tables::{Field, Kind, Message, Slot, Tables};
use crate::value::{meaning, push_value, quoted, sum, NOT_AVAILABLE};
use std::fmt::{Arguments, Write};

/// The JSON form.
pub struct Json;

/// Appends a text.
fn push(out: &mut String, text: Arguments) {
    out.write_fmt(text).expect("a string takes all that is written");
}

/// Appends a string of words that are printed signs alone.
fn push_words(out: &mut String, words: &str) {
    out.push('"');
    for sign in words.chars() {
        if matches!(sign, '"' | '\\') {
            out.push('\\');
        }
        out.push(sign);
    }
    out.push('"');
}

/// Appends a string, or null.
fn push_words_or_null(out: &mut String, words: Option<&str>) {
    match words {
        Some(words) => push_words(out, words),
        None => out.push_str("null"),
    }
}

/// Appends a number, or null.
fn push_or_null(out: &mut String, number: Option<impl std::fmt::Display>) {
    match number {
        Some(number) => push(out, format_args!("{number}")),
        None => out.push_str("null"),
    }
}

/// Appends the keys that every message has first, with the object's opening bracket.
fn push_head(out: &mut String, kind: &str, head: &Head) {
    let Head { at, framed, length, number, name } = head;
    push(out, format_args!("{{\"kind\":\"{kind}\",\"at\":{at},\"framed\":{framed},\"length\":{length},\"number\":"));
    push_or_null(out, *number);
    out.push_str(",\"name\":");
    push_words_or_null(out, *name);
}

/// Appends the keys that every field has first, with the object's opening bracket.
fn push_field_head(out: &mut String, field: &Field, slot: &Slot) {
    push(out, format_args!("{{\"df\":\"{}\",\"node\":", field.df));
    push_or_null(out, slot.node);
    out.push_str(",\"name\":");
    push_words(out, &field.name);
}

/// Appends the other keys of a number.
fn push_number(out: &mut String, field: &Field, raw: Option<i64>) {
    out.push_str(",\"raw\":");
    push_or_null(out, raw);
    out.push_str(",\"value\":");
    match raw {
        Some(raw) => push_value(out, field, raw),
        None => out.push_str("null"),
    }
    out.push_str(",\"unit\":");
    push_words_or_null(out, field.unit.as_deref());
    out.push_str(",\"sum\":");
    push_or_null(out, raw.and_then(|raw| sum(field, raw)).map(|sum| sum.1));
    out.push_str(",\"meaning\":");
    let words = raw.map_or(Some(NOT_AVAILABLE.to_string()), |raw| meaning(field, raw));
    push_words_or_null(out, words.as_deref());
    out.push('}');
}

/// Appends the other keys of a name.
fn push_name(out: &mut String, row: &[Option<i64>]) {
    let bytes = || row.iter().map(|byte| byte.unwrap_or(0) as u8);
    out.push_str(",\"raw\":");
    push_list(out, bytes(), |out, byte| push(out, format_args!("{byte}")));
    let text = quoted(bytes(), |byte| format!("\\u00{byte:02x}"));
    push(out, format_args!(",\"value\":{text},\"unit\":null,\"sum\":null,\"meaning\":null}}"));
}

/// Appends an array.
fn push_list<T>(out: &mut String, items: impl IntoIterator<Item = T>, push_item: impl Fn(&mut String, T)) {
    out.push('[');
    for (place, item) in items.into_iter().enumerate() {
        if place > 0 {
            out.push(',');
        }
        push_item(out, item);
    }
    out.push(']');
}

impl Printer for Json {
    fn outside(&mut self, out: &mut String, at: u64, length: u64) {
        push(out, format_args!("{{\"kind\":\"outside\",\"at\":{at},\"length\":{length}}}\n"));
    }

    fn other(&mut self, out: &mut String, head: &Head) {
        push_head(out, "other", head);
        out.push_str("}\n");
    }

    fn message(
        &mut self,
        out: &mut String,
        tables: &Tables,
        layout: &Message,
        head: &Head,
        sin: u8,
        row: &[Option<i64>],
    ) {
        push_head(out, "message", head);
        push(out, format_args!(",\"sin\":{sin},\"fields\":["));
        let mut at = 0;
        for (place, slot) in layout.slots.iter().enumerate() {
            let field = &tables.fields[slot.field];
            out.push_str(if place == 0 { "" } else { "," });
            push_field_head(out, field, slot);
            if field.kind == Kind::Name {
                let count = row[at - 1].unwrap_or(0) as usize;
                push_name(out, &row[at..at + count]);
                at += count;
            } else {
                push_number(out, field, row[at]);
                at += 1;
            }
        }
        out.push_str("]}\n");
    }

    fn refused(&mut self, out: &mut String, tables: &Tables, head: &Head, refusal: Refusal, fault: &Fault) {
        push_head(out, "refused", head);
        push(out, format_args!(",\"refusal\":{},\"refusal_name\":\"{}\",\"words\":", refusal.number(), refusal.name()));
        push_words(out, &fault.words(tables, head.length));
        out.push_str(",\"called\":");
        push_or_null(out, fault.called);
        out.push_str(",\"unread\":");
        push_words_or_null(out, fault.unread.map(|field| tables.fields[field].df.as_str()));
        out.push_str(",\"fill_bits\":");
        push_list(out, &fault.fill_bits, |out, bit| push(out, format_args!("{bit}")));
        out.push_str(",\"out_of_range\":");
        push_list(out, &fault.out_of_range, |out, outside| {
            let field = &tables.fields[outside.slot.field];
            push_field_head(out, field, &outside.slot);
            let (raw, smallest, greatest) = (outside.raw, field.smallest, field.greatest);
            push(out, format_args!(",\"raw\":{raw},\"smallest\":{smallest},\"greatest\":{greatest}}}"));
        });
        out.push_str("}\n");
    }

    fn end(&mut self, out: &mut String, bytes: u64, counts: &Counts) {
        let Counts { frames, outside, messages, refused, other } = counts;
        push(out, format_args!("{{\"kind\":\"end\",\"bytes\":{bytes},\"frames\":{frames},\"outside\":{outside}"));
        push(out, format_args!(",\"messages\":{messages},\"refused\":{refused},\"other\":{other}}}\n"));
    }
}
