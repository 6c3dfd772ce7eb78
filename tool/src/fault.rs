//! What is wrong with a refused message. The library says the refusal; the place is found here, in the message's bits.

use crate::bits;
use crate::library::Refusal;
use crate::tables::{Kind, Message, Slot, Tables};

/// A field outside its range.
pub struct OutOfRange {
    pub slot: Slot,
    pub raw: i64,
}

/// What is wrong with a message.
#[derive(Default)]
pub struct Fault {
    /// The bytes that the message calls for.
    pub called: Option<usize>,
    /// The name counter that cannot be read, a place in the table of fields.
    pub unread: Option<usize>,
    /// The fill bits that are set.
    pub fill_bits: Vec<usize>,
    /// The fields outside their range.
    pub out_of_range: Vec<OutOfRange>,
}

/// Where the fields of a message stand: the first bit of each, and the bit behind the last.
struct Places {
    places: Vec<(Slot, usize)>,
    end: usize,
}

/// What is wrong with a message of a known number that is refused so.
pub fn of(tables: &Tables, layout: &Message, message: &[u8], refusal: Refusal) -> Fault {
    let mut fault = Fault::default();
    if refusal == Refusal::Short {
        return fault;
    }
    match places(tables, layout, message) {
        Err(counter) => fault.unread = Some(counter),
        Ok(found) => match refusal {
            Refusal::Length => fault.called = Some(found.end.div_ceil(8)),
            Refusal::Fill => fault.fill_bits = set_bits(message, found.end),
            _ => fault.out_of_range = out_of_range(tables, message, found.places),
        },
    }
    fault
}

/// Where the fields stand, or the counter that cannot be read.
fn places(tables: &Tables, layout: &Message, message: &[u8]) -> Result<Places, usize> {
    let mut found = Places { places: Vec::new(), end: 0 };
    for (index, slot) in layout.slots.iter().enumerate() {
        let field = &tables.fields[slot.field];
        let times = match field.kind {
            Kind::Name => counter(tables, layout, message, &found, index)?,
            _ => 1,
        };
        found.places.push((slot.clone(), found.end));
        found.end += times * field.width;
    }
    Ok(found)
}

/// The count of a name's characters, in the field before it.
fn counter(tables: &Tables, layout: &Message, message: &[u8], found: &Places, index: usize) -> Result<usize, usize> {
    let counter = layout.slots[index - 1].field;
    let at = found.places[index - 1].1;
    bits::unsigned(message, at, tables.fields[counter].width).map(|count| count as usize).ok_or(counter)
}

/// The bits that are set from a place on.
fn set_bits(message: &[u8], from: usize) -> Vec<usize> {
    (from..8 * message.len()).filter(|&at| bits::bit(message, at) == Some(true)).collect()
}

/// The fields outside their range.
fn out_of_range(tables: &Tables, message: &[u8], places: Vec<(Slot, usize)>) -> Vec<OutOfRange> {
    let outside = |(slot, at): (Slot, usize)| {
        let field = &tables.fields[slot.field];
        let raw = match field.kind {
            Kind::Name => return None,
            Kind::Unsigned => bits::unsigned(message, at, field.width)?,
            Kind::Signed => bits::signed(message, at, field.width)?,
        };
        let absent = field.kind == Kind::Signed && raw == -(1 << (field.width - 1));
        let inside = field.smallest <= raw && raw <= field.greatest;
        (!absent && !inside).then_some(OutOfRange { slot, raw })
    };
    places.into_iter().filter_map(outside).collect()
}

impl Fault {
    /// The same in words, for a message of some bytes.
    pub fn words(&self, tables: &Tables, length: usize) -> String {
        let named = |field: usize| tables.fields[field].df.as_str();
        if let Some(called) = self.called {
            return format!("it has {}, and {called} are called for", counted(length as u64, "byte"));
        }
        if let Some(counter) = self.unread {
            return format!("the name counter {} cannot be read", named(counter));
        }
        let fields: Vec<&str> = self.out_of_range.iter().map(|outside| named(outside.slot.field)).collect();
        match (&self.fill_bits[..], &fields[..]) {
            ([bit], _) => format!("fill bit {bit} is set"),
            ([], []) => "it has under 2 bytes".to_string(),
            ([], [field]) => format!("{field} is outside its range"),
            ([], _) => format!("{} are outside their ranges", fields.join(", ")),
            (bits, _) => {
                let bits: Vec<String> = bits.iter().map(usize::to_string).collect();
                format!("fill bits {} are set", bits.join(", "))
            }
        }
    }
}

/// A number of things.
pub fn counted(count: u64, thing: &str) -> String {
    format!("{count} {thing}{}", if count == 1 { "" } else { "s" })
}
