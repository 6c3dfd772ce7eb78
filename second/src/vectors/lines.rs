//! The designed vectors of the exported calls as lines of text, with the second program's answers (VECTORS.md, "Lines of the exported calls").

use super::shifts::parts_text;
use super::{buffer_after, row_words, vectors, write_files, Call, Case, OnTable, Vector};
use crate::frame::{find_frame, write_frame};
use crate::grid::shifts;
use crate::heights::write_heights;
use crate::hex::hex;
use crate::index::{agrees, find, remove, store, write_index};
use crate::message::{read, write_row};
use crate::refusal::{number_of, Refusal};
use crate::rows::{fill, Ask};
use std::path::Path;

/// What every number of a row of shifts holds before the call.
const NUMBER_BEFORE: i64 = -7_777_777;

/// The table and the index that stand, on which the calls work.
#[derive(Default)]
struct Stand {
    table: Vec<u8>,
    index: Vec<u8>,
}

/// Numbers separated by single spaces, or a hyphen for none.
fn words(numbers: &[i64]) -> String {
    if numbers.is_empty() {
        return "-".to_string();
    }
    numbers.iter().map(i64::to_string).collect::<Vec<String>>().join(" ")
}

/// The header of a message, its row, and the message written from the row.
fn read_answer(bytes: &[u8]) -> String {
    match read(bytes) {
        Err(refusal) => format!("{} 0 0 0 : - : - : -", refusal.number()),
        Ok(message) => {
            let row = message.row();
            let written = write_row(&row, usize::MAX).expect("the row of a message is written");
            let header = format!("0 {} {} {}", message.number, message.length, message.sin());
            format!("{header} : {} : {} : {}", words(&row.values), hex(&row.present), hex(&written))
        }
    }
}

/// The refusal of a row of shifts, and all numbers of its buffer afterwards.
fn row_answer(bytes: &[u8], ask: &Ask, room: usize) -> String {
    let mut row = vec![NUMBER_BEFORE; room];
    let refusal = fill(bytes, ask, &mut row);
    format!("{refusal} : {}", words(&row))
}

/// The command of a call with its arguments, and what is answered.
fn line(stand: &mut Stand, call: &Call) -> (String, String) {
    let kind = call.kind();
    match call {
        Call::Read(bytes) => (format!("{kind} {}", hex(bytes)), read_answer(bytes)),
        Call::Write { row, room } => {
            (format!("{kind} {room} {}", row_words(row)), buffer_after(write_row(row, *room), *room))
        }
        Call::Shift { bytes, position: [north, east] } => {
            (format!("{kind} {} {north} {east}", hex(bytes)), parts_text(&shifts(bytes, *north, *east)))
        }
        Call::OnTable(call) => (table_command(call), stand.answer(call)),
        Call::Frame { from, bytes } => {
            let (refusal, at, length) = find_frame(bytes, *from).numbers();
            (format!("{kind} {from} {}", hex(bytes)), format!("{refusal} {at} {length}"))
        }
        Call::Enframe { message, room } => {
            (format!("{kind} {room} {}", hex(message)), buffer_after(write_frame(message, *room), *room))
        }
        Call::Row { bytes, ask, room } => {
            let Ask { component, start: [north, east], step, count } = ask;
            let asked = format!("{room} {component} {north} {east} {step} {count}");
            (format!("{kind} {asked} {}", hex(bytes)), row_answer(bytes, ask, *room))
        }
        Call::Heights { row, wanted, room } => {
            let heights: String = wanted.iter().map(|height| format!(" {height}")).collect();
            let values: String = row.values.iter().map(|value| format!(" {value}")).collect();
            let command = format!("{kind} {room} {} {}{heights}{values}", wanted.len(), hex(&row.present));
            (command, buffer_after(write_heights(row, wanted, *room), *room))
        }
    }
}

/// The command of a call on a table, with its arguments.
fn table_command(call: &OnTable) -> String {
    let kind = call.kind();
    match call {
        OnTable::Fresh { size } | OnTable::FreshIndex { size } => format!("{kind} {size}"),
        OnTable::Poke { at, value } | OnTable::PokeIndex { at, value } => format!("{kind} {at} {value}"),
        OnTable::Store { owner, message } => format!("{kind} {owner} {}", hex(message)),
        OnTable::Remove { owner, sin, group } | OnTable::Find { owner, sin, group } => {
            format!("{kind} {owner} {sin} {group}")
        }
        OnTable::Agrees | OnTable::Rebuild | OnTable::Bytes | OnTable::IndexBytes => kind.to_string(),
    }
}

impl Stand {
    /// Does what a call asks for and gives its answer.
    fn answer(&mut self, call: &OnTable) -> String {
        let Stand { table, index } = self;
        let refusal: Result<(), Refusal> = match call {
            OnTable::Store { owner, message } => store(table, index, *owner, message),
            OnTable::Remove { owner, sin, group } => remove(table, index, *owner, *sin, *group),
            OnTable::Agrees => agrees(table, index),
            OnTable::Rebuild => write_index(table, index),
            OnTable::Find { owner, sin, group } => return self.found(*owner, *sin, *group),
            OnTable::Bytes => return hex(table),
            OnTable::IndexBytes => return hex(index),
            _ => {
                self.set(call);
                return "ok".to_string();
            }
        };
        number_of(&refusal).to_string()
    }

    /// Takes a fresh table or index, or puts a byte into one.
    fn set(&mut self, call: &OnTable) {
        match call {
            OnTable::Fresh { size } => self.table = vec![0; *size],
            OnTable::FreshIndex { size } => self.index = vec![0; *size],
            OnTable::Poke { at, value } => self.table[*at] = *value,
            OnTable::PokeIndex { at, value } => self.index[*at] = *value,
            _ => unreachable!("{} sets no byte", call.kind()),
        }
    }

    /// Where a key's message stands, the entries that were named, and the message.
    fn found(&self, owner: u8, sin: u8, group: u8) -> String {
        match find(&self.table, &self.index, owner, sin, group) {
            Err(refusal) => format!("{} 0 0 0 -", refusal.number()),
            Ok(found) => {
                let message = &self.table[found.at..found.at + found.length];
                format!("0 {} {} {} {}", found.at, found.length, found.probes, hex(message))
            }
        }
    }
}

/// All vectors of the exported calls as cases, in order.
fn cases() -> Vec<Case> {
    let mut stand = Stand::default();
    let case = |Vector { name, call }: Vector| {
        let (call, answer) = line(&mut stand, &call);
        Case { name, call, answer }
    };
    vectors().into_iter().map(case).collect()
}

/// Writes the lines as the files stdin and stdout of a folder.
pub fn write(dir: &Path) -> std::io::Result<usize> {
    write_files(dir, &cases())
}
