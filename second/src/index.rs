//! The index beside a table, and the calls on a table with its index (request A9 of document 02).

use crate::refusal::Refusal;
use crate::table::{self, check_owner, held, slots, Held, Key, SLOT, SLOTS, SLOT_HEAD};

/// The bytes of an entry: owner, system identification number, group, slot.
pub const ENTRY: usize = 4;
/// The number of entries.
pub const ENTRIES: usize = 32;
/// The bytes of an index.
pub const INDEX_SIZE: usize = ENTRY * ENTRIES;
/// The greatest group.
const LAST_GROUP: u8 = 2;

/// One entry of an index.
#[derive(Clone, Copy, PartialEq, Eq, PartialOrd, Ord, Debug)]
struct Entry {
    key: Key,
    slot: u8,
}

impl Entry {
    /// An entry that is not in use.
    const UNUSED: Entry = Entry { key: Key { owner: 0, sin: 0, group: 0 }, slot: 0 };

    /// The entry of four bytes.
    fn of(bytes: &[u8]) -> Self {
        Entry { key: Key { owner: bytes[0], sin: bytes[1], group: bytes[2] }, slot: bytes[3] }
    }

    /// The four bytes of the entry.
    fn bytes(&self) -> [u8; ENTRY] {
        [self.key.owner, self.key.sin, self.key.group, self.slot]
    }
}

/// The entries that are true to the used slots, in the order of the slots.
fn true_entries(slots: &[Held]) -> Vec<Entry> {
    let entry = |(slot, held): (usize, &Held)| held.key().map(|key| Entry { key, slot: slot as u8 });
    slots.iter().enumerate().filter_map(entry).collect()
}

/// The entries in use, where the index has its size, they are sorted by their keys, rising, and all behind them are zero.
fn entries_in_use(index: &[u8]) -> Option<Vec<Entry>> {
    if index.len() != INDEX_SIZE {
        return None;
    }
    let entries: Vec<Entry> = index.chunks(ENTRY).map(Entry::of).collect();
    let count = entries.iter().position(|entry| *entry == Entry::UNUSED).unwrap_or(ENTRIES);
    let (used, unused) = entries.split_at(count);
    let rising = used.windows(2).all(|two| two[0].key < two[1].key);
    let zero = unused.iter().all(|entry| *entry == Entry::UNUSED);
    (rising && zero).then(|| used.to_vec())
}

/// Whether there is one entry true to each used slot, and no more.
fn true_to(used: &[Entry], slots: &[Held]) -> bool {
    let wanted = true_entries(slots);
    let once = |entry: &Entry| used.iter().filter(|other| *other == entry).count() == 1;
    wanted.iter().all(once) && used.len() == wanted.len()
}

/// Whether a table and an index agree, with refusals 18 and 22.
pub fn agrees(table: &[u8], index: &[u8]) -> Result<(), Refusal> {
    let slots = slots(table)?;
    let used = entries_in_use(index).ok_or(Refusal::Index)?;
    if true_to(&used, &slots) {
        Ok(())
    } else {
        Err(Refusal::Index)
    }
}

/// Writes the index of a table anew, with refusals 18 and, for a wrong size, 22.
pub fn write_index(table: &[u8], index: &mut [u8]) -> Result<(), Refusal> {
    let slots = slots(table)?;
    if index.len() != INDEX_SIZE {
        return Err(Refusal::Index);
    }
    let mut entries = true_entries(&slots);
    entries.sort();
    entries.resize(ENTRIES, Entry::UNUSED);
    index.copy_from_slice(&entries.iter().flat_map(Entry::bytes).collect::<Vec<u8>>());
    Ok(())
}

/// Stores an owner's message under its key, with refusals 18, 22, 21, 1 to 5 and 16.
pub fn store(table: &mut [u8], index: &mut [u8], owner: u8, message: &[u8]) -> Result<(), Refusal> {
    agrees(table, index)?;
    table::store(table, owner, message)?;
    write_index(table, index)
}

/// Zeroes the slot of a key, with refusals 18, 22, 21 and 17.
pub fn remove(table: &mut [u8], index: &mut [u8], owner: u8, sin: u8, group: u8) -> Result<(), Refusal> {
    agrees(table, index)?;
    table::remove(table, owner, sin, group)?;
    write_index(table, index)
}

/// Whether a key stands before an entry, above which owner 0 is.
fn stands_before(key: Key, entry: Entry) -> bool {
    entry.key.owner == 0 || key < entry.key
}

/// The entries of an index that the halving rule names for a key, from the first one to the last.
pub fn named_entries(index: &[u8], key: Key) -> Vec<usize> {
    let mut named = Vec::new();
    let mut left = 0..ENTRIES;
    while !left.is_empty() {
        let half = (left.start + (left.end - 1)) / 2;
        named.push(half);
        let entry = Entry::of(&index[half * ENTRY..]);
        if entry.key == key {
            break;
        }
        left = if stands_before(key, entry) { left.start..half } else { half + 1..left.end };
    }
    named
}

/// What a find gives.
#[derive(Clone, Copy, PartialEq, Eq, Debug)]
pub struct Found {
    /// The place of the message's first byte in the table.
    pub at: usize,
    /// The length of the message.
    pub length: usize,
    /// How many entries the halving rule named.
    pub probes: u8,
}

/// Where the message of an owner's key stands, by the halving rule and one slot, with refusals 18 and 22 for a wrong
/// size, 21, 17, and 22 where the entry is not true to its slot.
pub fn find(table: &[u8], index: &[u8], owner: u8, sin: u8, group: u8) -> Result<Found, Refusal> {
    if table.len() != table::SIZE {
        return Err(Refusal::Table);
    }
    if index.len() != INDEX_SIZE {
        return Err(Refusal::Index);
    }
    check_owner(owner)?;
    if group > LAST_GROUP {
        return Err(Refusal::None);
    }
    let key = Key { owner, sin, group };
    let named = named_entries(index, key);
    let last = named.last().map(|&entry| Entry::of(&index[entry * ENTRY..]));
    let entry = last.filter(|entry| entry.key == key).ok_or(Refusal::None)?;
    let length = length_in(table, entry).ok_or(Refusal::Index)?;
    Ok(Found { at: entry.slot as usize * SLOT + SLOT_HEAD, length, probes: named.len() as u8 })
}

/// The length of the message in an entry's slot, where that is a used slot of the entry's key.
fn length_in(table: &[u8], entry: Entry) -> Option<usize> {
    let slot = entry.slot as usize;
    if slot >= SLOTS {
        return None;
    }
    match held(&table[slot * SLOT..(slot + 1) * SLOT]) {
        Some(Held::Used(key, length)) if key == entry.key => Some(length),
        _ => None,
    }
}
