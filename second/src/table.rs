//! The table that stores the messages of two owners (document 01, "The table", and request A7 of document 02).

use crate::message::read;
use crate::refusal::Refusal;

/// The bytes of a slot: owner, length, message bytes, three zeros.
pub const SLOT: usize = 132;
/// The bytes of a slot before its message: owner and length.
pub const SLOT_HEAD: usize = 2;
/// The message bytes of a slot.
pub const SLOT_ROOM: usize = 127;
/// The number of slots.
pub const SLOTS: usize = 32;
/// The bytes of a table.
pub const SIZE: usize = SLOT * SLOTS;
/// The two owners.
pub const OWNERS: [u8; 2] = [1, 2];
/// The most slots that an owner holds.
pub const MOST_HELD: usize = 20;

/// Under what a message stands.
#[derive(Clone, Copy, PartialEq, Eq, PartialOrd, Ord, Hash, Debug)]
pub struct Key {
    /// Who stored it.
    pub owner: u8,
    /// The system identification number.
    pub sin: u8,
    /// 0 for 1021 and 1022, 1 for 1023 and 1024, 2 for the rest.
    pub group: u8,
}

/// What a well-formed slot holds.
#[derive(Clone, Copy, PartialEq, Eq, Debug)]
pub enum Held {
    /// Nothing.
    Free,
    /// A message of this key and length.
    Used(Key, usize),
}

impl Held {
    /// The key of a used slot.
    pub fn key(&self) -> Option<Key> {
        match self {
            Held::Free => None,
            Held::Used(key, _) => Some(*key),
        }
    }
}

/// The owner that is not the given one.
pub fn other_than(owner: u8) -> u8 {
    OWNERS[0] + OWNERS[1] - owner
}

/// The group of a message number.
pub fn group_of(number: u16) -> u8 {
    match number {
        1021 | 1022 => 0,
        1023 | 1024 => 1,
        _ => 2,
    }
}

/// The key of an owner's message, with refusals 1 to 5.
pub fn key_of(owner: u8, message: &[u8]) -> Result<Key, Refusal> {
    let message = read(message)?;
    Ok(Key { owner, sin: message.sin(), group: group_of(message.number) })
}

/// What a slot holds, or none where it is not well formed.
pub fn held(slot: &[u8]) -> Option<Held> {
    if slot.iter().all(|&b| b == 0) {
        return Some(Held::Free);
    }
    let owner = slot[0];
    let length = slot[1] as usize;
    let message = slot[SLOT_HEAD..SLOT_HEAD + SLOT_ROOM].get(..length)?;
    let key = key_of(owner, message).ok()?;
    let clean = slot[SLOT_HEAD + length..].iter().all(|&b| b == 0);
    (OWNERS.contains(&owner) && clean).then_some(Held::Used(key, length))
}

/// What every slot holds, or TABLE for a wrong size or a table that is not well formed.
pub fn slots(table: &[u8]) -> Result<Vec<Held>, Refusal> {
    if table.len() != SIZE {
        return Err(Refusal::Table);
    }
    let slots: Option<Vec<Held>> = table.chunks(SLOT).map(held).collect();
    let slots = slots.ok_or(Refusal::Table)?;
    if a_key_stands_twice(&slots) || OWNERS.iter().any(|&owner| count_of(&slots, owner) > MOST_HELD) {
        Err(Refusal::Table)
    } else {
        Ok(slots)
    }
}

/// Whether two used slots have the same key.
fn a_key_stands_twice(slots: &[Held]) -> bool {
    let keys: Vec<Key> = slots.iter().filter_map(Held::key).collect();
    keys.iter().enumerate().any(|(i, key)| keys[..i].contains(key))
}

/// How many slots an owner holds.
fn count_of(slots: &[Held], owner: u8) -> usize {
    slots.iter().filter_map(Held::key).filter(|key| key.owner == owner).count()
}

/// The slot of a key and the length of its message.
fn place_of(slots: &[Held], key: Key) -> Option<(usize, usize)> {
    slots.iter().enumerate().find_map(|(slot, held)| match held {
        Held::Used(other, length) if *other == key => Some((slot, *length)),
        _ => None,
    })
}

/// The slot in which a message of a key is to stand: that of the key, else the first free one, with refusal 16.
fn slot_for(slots: &[Held], key: Key) -> Result<usize, Refusal> {
    if let Some((slot, _)) = place_of(slots, key) {
        return Ok(slot);
    }
    let first_free = slots.iter().position(|held| *held == Held::Free);
    let below_most = count_of(slots, key.owner) < MOST_HELD;
    first_free.filter(|_| below_most).ok_or(Refusal::Full)
}

/// Refusal 21 for a number that is no owner.
pub fn check_owner(owner: u8) -> Result<(), Refusal> {
    if OWNERS.contains(&owner) {
        Ok(())
    } else {
        Err(Refusal::Owner)
    }
}

/// Stores an owner's message under its key, with refusals 18, 21, 1 to 5 and 16.
pub fn store(table: &mut [u8], owner: u8, message: &[u8]) -> Result<(), Refusal> {
    let slots = slots(table)?;
    check_owner(owner)?;
    let key = key_of(owner, message)?;
    let slot = slot_for(&slots, key)?;
    let bytes = &mut table[slot * SLOT..(slot + 1) * SLOT];
    bytes.fill(0);
    bytes[0] = owner;
    bytes[1] = message.len() as u8;
    bytes[SLOT_HEAD..SLOT_HEAD + message.len()].copy_from_slice(message);
    Ok(())
}

/// The slot of an owner's key and the length of its message, with refusals 18, 21 and 17.
fn look_up(table: &[u8], owner: u8, sin: u8, group: u8) -> Result<(usize, usize), Refusal> {
    let slots = slots(table)?;
    check_owner(owner)?;
    place_of(&slots, Key { owner, sin, group }).ok_or(Refusal::None)
}

/// The place of a message's first byte in the table and its length, with refusals 18, 21 and 17.
pub fn find(table: &[u8], owner: u8, sin: u8, group: u8) -> Result<(usize, usize), Refusal> {
    let (slot, length) = look_up(table, owner, sin, group)?;
    Ok((slot * SLOT + SLOT_HEAD, length))
}

/// Zeroes the slot of a key, with refusals 18, 21 and 17.
pub fn remove(table: &mut [u8], owner: u8, sin: u8, group: u8) -> Result<(), Refusal> {
    let (slot, _) = look_up(table, owner, sin, group)?;
    table[slot * SLOT..(slot + 1) * SLOT].fill(0);
    Ok(())
}
