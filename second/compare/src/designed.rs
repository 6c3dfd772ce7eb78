//! Runs the second program's designed vectors through the exported calls.

use crate::tables::Both;
use crate::tally::{self, Tally};
use crate::{framing, heights, reading, rows, shifting, writing, Compared};
use second::message::{read, Row};
use second::vectors::{vectors, Call, OnTable};

/// What the bytes of a buffer and the numbers of a row hold before a call.
const BYTE_BEFORE: u8 = 0xa5;
const NUMBER_BEFORE: i64 = -7_777_777;
/// The places of the buffers that a row is read into, and the bytes of the one that it is written into again.
const PLACES: usize = 96;
const ROOM: usize = 160;

/// The kinds of vectors, in order, with the refusal numbers that they must meet.
const KINDS: [(&str, &[u8]); 18] = [
    ("read", &[0, 1, 2, 3, 4, 5]),
    ("write", &[0, 5, 6]),
    ("shift", &[0, 1, 2, 3, 4, 5, 7, 9, 10, 11, 12, 13, 14, 15]),
    ("table", &[0]),
    ("index", &[0]),
    ("poke", &[0]),
    ("pokeindex", &[0]),
    ("store", &[0, 1, 2, 3, 4, 5, 16, 18, 21, 22]),
    ("remove", &[0, 17, 18, 21, 22]),
    ("find", &[0, 17, 18, 21, 22]),
    ("agrees", &[0, 18, 22]),
    ("rebuild", &[0, 18, 22]),
    ("bytes", &[0]),
    ("indexbytes", &[0]),
    ("frame", &[0, 19, 20]),
    ("enframe", &[0, 3, 6]),
    ("row", &[0, 1, 2, 3, 4, 5, 6, 7, 8, 9, 10, 11, 12, 13, 14, 15]),
    ("heights", &[0, 5, 6, 10, 11, 12, 13, 23]),
];

/// A message's header, its row, and the message written from its row.
fn same_message(bytes: Box<[u8]>) -> Compared {
    let refusals = reading::same_header(&bytes)?;
    reading::same_row(&bytes, [PLACES; 2], Row { values: vec![NUMBER_BEFORE; PLACES], present: vec![255; PLACES] })?;
    if let Ok(message) = read(&bytes) {
        let row = message.row();
        let count = row.values.len();
        reading::same_row(&bytes, [count; 2], Row { values: vec![NUMBER_BEFORE; count], present: vec![255; count] })?;
        writing::same_written(&row, ROOM, vec![BYTE_BEFORE; ROOM])?;
    }
    Ok(refusals)
}

/// One call on the table and the index that stand, all bytes of which are compared behind it.
fn same_on(both: &mut Both, call: OnTable) -> Compared {
    match call {
        OnTable::Fresh { size } => both.set_table(vec![0; size].into()),
        OnTable::FreshIndex { size } => both.set_index(vec![0; size].into()),
        OnTable::Poke { at, value } => both.poke(at, value),
        OnTable::PokeIndex { at, value } => both.poke_index(at, value),
        OnTable::Store { owner, message } => return both.store(owner, &message),
        OnTable::Remove { owner, sin, group } => return both.remove(owner, sin, group),
        OnTable::Find { owner, sin, group } => return both.find(owner, sin, group).map(|(refusals, _)| refusals),
        OnTable::Agrees => return both.agrees(),
        OnTable::Rebuild => return both.write_index(),
        OnTable::Bytes | OnTable::IndexBytes => {}
    }
    both.same_bytes()
}

/// One call, whose answer and buffers must be the second program's.
fn same_call(both: &mut Both, call: Call) -> Compared {
    match call {
        Call::Read(bytes) => same_message(bytes.into()),
        Call::Write { row, room } => writing::same_written(&row, room, vec![BYTE_BEFORE; room]),
        Call::Shift { bytes, position } => shifting::compare_at(bytes, position),
        Call::OnTable(call) => same_on(both, call),
        Call::Frame { from, bytes } => framing::same_found(&bytes.into_boxed_slice(), from),
        Call::Enframe { message, room } => {
            framing::same_framed(&message.into_boxed_slice(), room, vec![BYTE_BEFORE; room])
        }
        Call::Row { bytes, ask, room } => rows::same_row(bytes, ask, room, vec![NUMBER_BEFORE; room]),
        Call::Heights { row, wanted, room } => heights::same_written(&row, &wanted, room, vec![BYTE_BEFORE; room]),
    }
}

/// Runs the calls on tables and every so manieth of the other vectors, or gives the first that differs; then the counts by kind,
/// and, of all vectors, whether every refusal was met.
pub fn run(one_in: usize) -> Result<bool, String> {
    let mut both = Both::new(Box::default(), Box::default());
    let mut counts = KINDS.map(|(name, possible)| (0, Tally::new(name, possible)));
    let wanted = |place: usize, call: &Call| matches!(call, Call::OnTable(_)) || place.is_multiple_of(one_in);
    for (_, vector) in vectors().into_iter().enumerate().filter(|(place, vector)| wanted(*place, &vector.call)) {
        let kind = vector.call.kind();
        let place = KINDS.iter().position(|of| of.0 == kind).ok_or(format!("{kind} is no kind of vector"))?;
        let refusals =
            same_call(&mut both, vector.call).map_err(|difference| format!("{}: {difference}", vector.name))?;
        counts[place].0 += 1;
        counts[place].1.add(&refusals);
    }
    let words: Vec<String> = KINDS.iter().zip(&counts).map(|(kind, count)| format!("{} {}", count.0, kind.0)).collect();
    println!("{}: {} vectors in all", words.join(", "), counts.iter().map(|count| count.0).sum::<u64>());
    let never_met = if one_in == 1 { tally::never_met(&counts.map(|count| count.1)) } else { Vec::new() };
    never_met.iter().for_each(|line| println!("{line}"));
    Ok(never_met.is_empty())
}
