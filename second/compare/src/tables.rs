//! Compares histories of calls on tables of two owners with their index.

use crate::{messages, same, Compared};
use second::hex::hex;
use second::history::used_slots;
use second::index::{agrees, find, remove, store, write_index, ENTRY, INDEX_SIZE};
use second::index_damage::damaged_index;
use second::random::Random;
use second::refusal::{number_of, Refusal};
use second::table::{key_of, other_than, Key, MOST_HELD, OWNERS, SIZE, SLOT, SLOTS, SLOT_HEAD, SLOT_ROOM};
use tarnoklej::{ffi, MOST_PROBES};

/// The turns of one history.
const TURNS: u64 = 24;
/// The messages made for a slot before it stays free.
const TRIES: usize = 6;
/// Sizes of tables that are refused.
const WRONG_SIZES: [usize; 9] = [0, 1, SLOT - 1, SLOT, 4_096, SIZE - 1, SIZE + 1, SIZE - SLOT, SIZE + SLOT];
/// Numbers that are no owner.
const NO_OWNERS: [u8; 4] = [0, 3, 128, 255];

/// A table and its index.
#[derive(Clone, PartialEq, Eq, Debug)]
struct Pair {
    table: Box<[u8]>,
    index: Box<[u8]>,
}

/// A table with its index on which calls are made, once for each program.
pub struct Both {
    library: Pair,
    second: Pair,
}

/// A table with its index and the turns that its history had.
pub struct History {
    on: Both,
    sins: u64,
    turns: u64,
}

/// What was met in all histories: FULL for each of its two reasons alone, and finds by their number of probes.
#[derive(Default)]
pub struct Met {
    /// The owner held 20 slots, and a slot was free.
    pub most_held: u64,
    /// No slot was free, and the owner held fewer than 20.
    pub none_free: u64,
    /// Finds that were answered with each number of probes.
    pub probes: [u64; MOST_PROBES as usize + 1],
}

impl Met {
    /// Counts a store of an owner that was refused with FULL on a table.
    fn add_full(&mut self, table: &[u8], owner: u8) {
        let counts = used_slots(table);
        let most_held = counts[owner as usize] == MOST_HELD;
        let none_free = counts[0] == SLOTS;
        self.most_held += u64::from(most_held && !none_free);
        self.none_free += u64::from(none_free && !most_held);
    }

    /// The fewest finds with any number of probes from 1 on.
    pub fn fewest_with_probes(&self) -> u64 {
        self.probes[1..].iter().copied().min().unwrap_or(0)
    }

    /// Lines on what was met.
    pub fn lines(&self) -> String {
        let probes: Vec<String> =
            (1..).zip(&self.probes[1..]).map(|(probes, count)| format!("{count} with {probes}")).collect();
        format!(
            "store met FULL {} times with 20 slots of the owner's and a slot free, {} times with fewer and no slot free\n\
             find by the number of probes: {}",
            self.most_held,
            self.none_free,
            probes.join(", ")
        )
    }
}

/// Puts an owner's message into a slot that is all zero.
fn put(slot: &mut [u8], owner: u8, message: &[u8]) {
    slot[0] = owner;
    slot[1] = message.len() as u8;
    slot[SLOT_HEAD..SLOT_HEAD + message.len()].copy_from_slice(message);
}

/// A table that holds messages of different keys in any of its slots, one in three as full as the keys allow. The share
/// of owner 1 is any, up to the 20 slots of each.
fn table_of_messages(random: &mut Random, sins: u64) -> Vec<u8> {
    let used = if random.below(3) == 0 { SLOTS as u64 } else { random.below(SLOTS as u64) };
    let share = messages::pick(random, &[0, 3, 5, 6, 10]);
    let mut table = vec![0; SIZE];
    let mut keys = Vec::new();
    for slot in table.chunks_mut(SLOT).filter(|_| random.below(SLOTS as u64) < used).collect::<Vec<_>>() {
        let owner = owner_by_share(random, share, &keys);
        if let Some(message) = (0..TRIES).find_map(|_| of_new_key(random, owner, sins, &mut keys)) {
            put(slot, owner, &message);
        }
    }
    table
}

/// Owner 1 a number of times in ten, but no owner beyond 20 keys.
fn owner_by_share(random: &mut Random, share: u64, taken: &[Key]) -> u8 {
    let owner = if random.below(10) < share { 1 } else { 2 };
    let held = taken.iter().filter(|key| key.owner == owner).count();
    if held < MOST_HELD {
        owner
    } else {
        other_than(owner)
    }
}

/// A sound message, where its key is not among those taken.
fn of_new_key(random: &mut Random, owner: u8, sins: u64, taken: &mut Vec<Key>) -> Option<Vec<u8>> {
    let message = any_sound(random, sins);
    let key = key_of(owner, &message).expect("a sound message");
    if taken.contains(&key) {
        return None;
    }
    taken.push(key);
    Some(message)
}

/// A sound message of one of the system identification numbers.
fn any_sound(random: &mut Random, sins: u64) -> Vec<u8> {
    let sin = random.below(sins) as i64;
    messages::any_sample(random).with(147, sin).bytes()
}

/// A message to store, every fifth turn of the next kind and otherwise sound.
fn any_message(random: &mut Random, turn: u64, sins: u64) -> Vec<u8> {
    if turn % 5 == 2 {
        messages::of_kind(random, turn / 5)
    } else {
        any_sound(random, sins)
    }
}

/// An owner, or one time in twelve a number that is none.
fn any_owner(random: &mut Random) -> u8 {
    if random.below(12) == 0 {
        messages::pick(random, &NO_OWNERS)
    } else {
        messages::pick(random, &OWNERS)
    }
}

/// A table in which an owner holds a number of slots, the other so many in ten of the rest, and no key stands twice.
fn table_of_held(random: &mut Random, held: usize, share: u64) -> Vec<u8> {
    let owner = messages::pick(random, &OWNERS);
    let first = random.below((SLOTS - held + 1) as u64) as usize;
    let mut table = vec![0; SIZE];
    for (place, slot) in table.chunks_mut(SLOT).enumerate() {
        let own = (first..first + held).contains(&place);
        if own || random.below(10) < share {
            let message = messages::any_sample(random).with(147, place as i64).bytes();
            put(slot, if own { owner } else { other_than(owner) }, &message);
        }
    }
    table
}

/// A table with one thing wrong, or a change that leaves it well formed.
fn damaged(random: &mut Random, table: &[u8]) -> Vec<u8> {
    let mut other = table.to_vec();
    let at = random.below(SIZE as u64) as usize;
    let slot = at / SLOT * SLOT;
    match random.below(10) {
        0 => other.resize(messages::pick(random, &WRONG_SIZES), 0),
        1 => other[at] = random.bits() as u8,
        2 => other[at] ^= 1 << random.below(8),
        3 => other[slot] = messages::pick(random, &[0, 1, 2, 3, 255]),
        4 => other[slot + 1] = random.bits() as u8,
        5 => other[slot + SLOT_HEAD + SLOT_ROOM + at % 3] = 1 + random.below(255) as u8,
        6 => other.copy_within(slot..slot + SLOT, random.below(SLOTS as u64) as usize * SLOT),
        7 => {
            let to = random.below(SLOTS as u64) as usize * SLOT;
            other.copy_within(slot..slot + SLOT, to);
            other[to] ^= 3 * u8::from(other[to] != 0);
        }
        8 => {
            let kept = other[slot..slot + SLOT].to_vec();
            other = random.bytes(SIZE);
            other[slot..slot + SLOT].copy_from_slice(&kept);
        }
        _ => {
            let held = MOST_HELD - 1 + random.below(4) as usize;
            return table_of_held(random, held, 5);
        }
    }
    other
}

impl History {
    /// Begins with a table that is empty, holds messages, has 20 slots of an owner or is full.
    pub fn new(random: &mut Random, turn: u64) -> Self {
        let sins = messages::pick(random, &[2, 6, 14, 40, 256]);
        let table = match turn / TURNS % 7 {
            6 => vec![0; SIZE],
            1 | 4 => table_of_held(random, MOST_HELD, 5),
            2 => table_of_held(random, SLOTS / 2, 10),
            _ => table_of_messages(random, sins),
        };
        let mut index = vec![0; INDEX_SIZE];
        write_index(&table, &mut index).expect("a well-formed table");
        History { on: Both::new(table.into(), index.into()), sins, turns: 0 }
    }

    /// Whether the history has had its turns.
    pub fn ended(&self) -> bool {
        self.turns == TURNS
    }

    /// Compares one call of each kind, every third turn on a table or an index that is damaged and then put back.
    pub fn turn(&mut self, random: &mut Random, turn: u64, met: &mut Met) -> Result<[Vec<u8>; 5], String> {
        self.turns += 1;
        if !self.turns.is_multiple_of(3) {
            return self.calls(random, turn, met);
        }
        let kept = self.on.second.clone();
        let damage = random.below(8);
        let table = if damage < 4 { damaged(random, &kept.table).into() } else { kept.table.clone() };
        let index = if damage > 2 { damaged_index(random, &kept.index, turn / 3).into() } else { kept.index.clone() };
        self.on = Both::new(table, index);
        let compared = self.calls(random, turn, met);
        self.on = Both::new(kept.table, kept.index);
        compared
    }

    /// Compares one call of each kind.
    fn calls(&mut self, random: &mut Random, turn: u64, met: &mut Met) -> Result<[Vec<u8>; 5], String> {
        let owner = any_owner(random);
        let message = any_message(random, turn, self.sins);
        let stored = self.on.store(owner, &message)?;
        if stored == [Refusal::Full.number()] {
            met.add_full(&self.on.second.table, owner);
        }
        let (owner, sin, group) = self.key_to_find(random);
        let (found, probes) = self.on.find(owner, sin, group)?;
        met.probes[usize::from(probes)] += 1;
        let (owner, sin, group) = self.any_key(random);
        let removed = self.on.remove(owner, sin, group)?;
        let agrees = self.on.agrees()?;
        Ok([stored, found, removed, agrees, self.on.write_any_index(random)?])
    }

    /// An owner, or a number that is none, and a key, one in ten of a group not 0 to 2.
    fn any_key(&self, random: &mut Random) -> (u8, u8, u8) {
        let group = if random.below(10) == 0 { random.bits() as u8 } else { random.below(3) as u8 };
        (any_owner(random), random.below(self.sins) as u8, group)
    }

    /// The key of an entry in use, of any, of the last or of one that is not of groups 0 to 2, or any key.
    fn key_to_find(&self, random: &mut Random) -> (u8, u8, u8) {
        let entries: Vec<&[u8]> = self.on.second.index.chunks_exact(ENTRY).filter(|entry| entry[0] != 0).collect();
        if entries.is_empty() || random.below(2) == 0 {
            return self.any_key(random);
        }
        let odd = entries.iter().find(|entry| entry[2] > 2);
        let entry = match random.below(6) {
            0 => entries[entries.len() - 1],
            1 | 2 => odd.copied().unwrap_or(entries[0]),
            _ => messages::pick(random, &entries),
        };
        (entry[0], entry[1], entry[2])
    }
}

impl Both {
    /// The same table and index for both programs.
    pub fn new(table: Box<[u8]>, index: Box<[u8]>) -> Self {
        let pair = Pair { table, index };
        Both { library: pair.clone(), second: pair }
    }

    /// Takes another table for both.
    pub fn set_table(&mut self, table: Box<[u8]>) {
        self.library.table = table.clone();
        self.second.table = table;
    }

    /// Takes another index for both.
    pub fn set_index(&mut self, index: Box<[u8]>) {
        self.library.index = index.clone();
        self.second.index = index;
    }

    /// Puts a byte into both tables.
    pub fn poke(&mut self, at: usize, value: u8) {
        self.library.table[at] = value;
        self.second.table[at] = value;
    }

    /// Puts a byte into both indexes.
    pub fn poke_index(&mut self, at: usize, value: u8) {
        self.library.index[at] = value;
        self.second.index[at] = value;
    }

    /// Compares all bytes of the tables and of the indexes.
    pub fn same_bytes(&self) -> Compared {
        self.same(0, (), (), || "looked at".to_string())
    }

    /// The refusal where the library's answer, table and index are the second program's.
    fn same<T: PartialEq + std::fmt::Debug>(
        &self,
        refusal: u8,
        library: T,
        second: T,
        call: impl Fn() -> String,
    ) -> Compared {
        let Pair { table, index } = &self.second;
        same(refusal, library, second, || format!("{}\non table {}\nand index {}", call(), hex(table), hex(index)))?;
        same(refusal, &self.library, &self.second, || format!("{}, which left other bytes", call()))
    }

    /// Compares one store.
    pub fn store(&mut self, owner: u8, message: &[u8]) -> Compared {
        let message: Box<[u8]> = message.into();
        let expected = number_of(&store(&mut self.second.table, &mut self.second.index, owner, &message));
        let Pair { table, index } = &mut self.library;
        let (start, size, entries, index_size) = (table.as_mut_ptr(), table.len(), index.as_mut_ptr(), index.len());
        // SAFETY: the pointers and lengths are those of slices that do not overlap.
        let refusal =
            unsafe { ffi::tarnoklej_store(start, size, entries, index_size, owner, message.as_ptr(), message.len()) };
        self.same(expected, refusal, expected, || format!("store {owner} {}", hex(&message)))
    }

    /// Compares one find, the message's bytes being those of equal tables, and gives the number of probes too.
    pub fn find(&mut self, owner: u8, sin: u8, group: u8) -> Result<(Vec<u8>, u8), String> {
        let answer = find(&self.second.table, &self.second.index, owner, sin, group);
        let refusal = number_of(&answer);
        let (at, length, probes) = answer.map_or((0, 0, 0), |found| (found.at, found.length, found.probes));
        let Pair { table, index } = &self.library;
        // SAFETY: the pointers and lengths are those of slices.
        let library =
            unsafe { ffi::tarnoklej_find(table.as_ptr(), table.len(), index.as_ptr(), index.len(), owner, sin, group) };
        let expected = ffi::Found { refusal, at, length, probes };
        let refusals = self.same(refusal, library, expected, || format!("find {owner} {sin} {group}"))?;
        Ok((refusals, probes))
    }

    /// Compares one remove.
    pub fn remove(&mut self, owner: u8, sin: u8, group: u8) -> Compared {
        let expected = number_of(&remove(&mut self.second.table, &mut self.second.index, owner, sin, group));
        let Pair { table, index } = &mut self.library;
        let (start, size, entries, index_size) = (table.as_mut_ptr(), table.len(), index.as_mut_ptr(), index.len());
        // SAFETY: the pointers and lengths are those of slices that do not overlap.
        let refusal = unsafe { ffi::tarnoklej_remove(start, size, entries, index_size, owner, sin, group) };
        self.same(expected, refusal, expected, || format!("remove {owner} {sin} {group}"))
    }

    /// Compares whether table and index agree.
    pub fn agrees(&mut self) -> Compared {
        let expected = number_of(&agrees(&self.second.table, &self.second.index));
        let Pair { table, index } = &self.library;
        // SAFETY: the pointers and lengths are those of slices.
        let refusal = unsafe { ffi::tarnoklej_index_agrees(table.as_ptr(), table.len(), index.as_ptr(), index.len()) };
        self.same(expected, refusal, expected, || "agrees".to_string())
    }

    /// Compares an index that is written anew.
    pub fn write_index(&mut self) -> Compared {
        let expected = number_of(&write_index(&self.second.table, &mut self.second.index));
        let Pair { table, index } = &mut self.library;
        // SAFETY: the pointers and lengths are those of slices that do not overlap.
        let refusal =
            unsafe { ffi::tarnoklej_index_write(table.as_ptr(), table.len(), index.as_mut_ptr(), index.len()) };
        self.same(expected, refusal, expected, || "write the index anew".to_string())
    }

    /// Compares an index that is written anew over any bytes; the index that was there is then back.
    fn write_any_index(&mut self, random: &mut Random) -> Compared {
        let kept = self.second.index.clone();
        self.set_index(random.bytes(kept.len()).into());
        let compared = self.write_index();
        self.set_index(kept);
        compared
    }
}
