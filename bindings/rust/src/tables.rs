//! Tables with their index: storing, finding and removing messages of two owners.

use crate::{ffi, Group, Owner, Refusal};

/// The bytes of a table; 4,224 zeros are an empty table.
pub const TABLE_SIZE: usize = 4_224;
/// The messages that a table holds.
pub const SLOTS: usize = 32;
/// The slots that an owner holds at most, so that 12 are always there for the other.
pub const OWNER_SLOTS: usize = 20;
/// The bytes of a slot: owner, length, 127 message bytes, three zeros.
pub const SLOT_SIZE: usize = 132;
/// The bytes of an index; 128 zeros are the index of an empty table.
pub const INDEX_SIZE: usize = 128;
/// The entries of an index that a find looks at, at most.
pub const MOST_PROBES: u8 = 6;
/// The bytes of an entry of an index: owner, system identification number, group, slot.
const ENTRY_SIZE: usize = INDEX_SIZE / SLOTS;

/// Under what a table keeps a message.
#[derive(Clone, Copy, PartialEq, Eq, PartialOrd, Ord, Hash, Debug)]
pub struct Key {
    /// Whose message it is.
    pub owner: Owner,
    /// The system identification number, DF147.
    pub sin: u8,
    /// The group of the message.
    pub group: Group,
}

/// A message found in a table.
#[derive(Clone, Copy, PartialEq, Eq, Hash, Debug)]
pub struct Found<'table> {
    /// The place of the message's first byte in the table.
    pub at: usize,
    /// The message, which is the part of the table itself and not a copy.
    pub message: &'table [u8],
    /// How many entries of the index were looked at, 1 to [`MOST_PROBES`].
    pub probes: u8,
}

/// A table and its index, which agree.
///
/// Two owners share it, and the same system identification number and group may stand once for each. No call by one owner
/// shows, replaces or removes a message of the other.
///
/// ```
/// use tarnoklej::{example, Group, Key, Owner, Refusal, Table};
///
/// let message = example::grid_k();
/// let key = Key { owner: Owner::One, sin: 7, group: Group::Grid };
/// let mut table = Table::new();
/// assert_eq!(table.store(Owner::One, &message), Ok(()));
/// assert_eq!(table.find(key)?.message, message);
/// assert_eq!(table.find(Key { group: Group::Projection, ..key }), Err(Refusal::None));
/// assert_eq!(table.find(Key { owner: Owner::Two, ..key }), Err(Refusal::None));
/// assert_eq!(table.messages().collect::<Vec<_>>(), [(key, &message[..])]);
///
/// let kept = *table.bytes();
/// let mut again = Table::from_bytes(&kept)?;
/// assert_eq!(again, table);
/// again.remove(key)?;
/// assert_eq!(again, Table::new());
/// # Ok::<(), Refusal>(())
/// ```
#[derive(Clone, PartialEq, Eq, Debug)]
pub struct Table {
    bytes: [u8; TABLE_SIZE],
    index: [u8; INDEX_SIZE],
}

impl Default for Table {
    /// An empty table.
    fn default() -> Self {
        Table::new()
    }
}

impl Table {
    /// An empty table.
    pub const fn new() -> Self {
        Table { bytes: [0; TABLE_SIZE], index: [0; INDEX_SIZE] }
    }

    /// The table of bytes that were kept, with an index written anew.
    ///
    /// Refusals: TABLE.
    pub fn from_bytes(bytes: &[u8]) -> Result<Self, Refusal> {
        let mut index = [0; INDEX_SIZE];
        write_index(bytes, &mut index)?;
        let bytes = bytes.try_into().map_err(|_| Refusal::Table)?;
        Ok(Table { bytes, index })
    }

    /// The bytes of the table.
    pub fn bytes(&self) -> &[u8; TABLE_SIZE] {
        &self.bytes
    }

    /// The bytes of the index.
    pub fn index(&self) -> &[u8; INDEX_SIZE] {
        &self.index
    }

    /// Stores an owner's message under its key, see [`store`].
    ///
    /// Refusals: SHORT, NUMBER, LENGTH, FILL, RANGE, FULL; with a refusal the table stays as it was.
    pub fn store(&mut self, owner: Owner, message: &[u8]) -> Result<(), Refusal> {
        store(&mut self.bytes, &mut self.index, owner, message)
    }

    /// Gives the message of a key as the part of the table where it stands.
    ///
    /// Refusals: NONE.
    pub fn find(&self, key: Key) -> Result<Found<'_>, Refusal> {
        find(&self.bytes, &self.index, key)
    }

    /// Removes the message of a key.
    ///
    /// Refusals: NONE; with a refusal the table stays as it was.
    pub fn remove(&mut self, key: Key) -> Result<(), Refusal> {
        remove(&mut self.bytes, &mut self.index, key)
    }

    /// The messages of both owners with their keys, in the order of the keys.
    pub fn messages(&self) -> impl Iterator<Item = (Key, &[u8])> {
        self.index.chunks_exact(ENTRY_SIZE).map_while(|entry| {
            let key =
                Key { owner: Owner::try_from(entry[0]).ok()?, sin: entry[1], group: Group::try_from(entry[2]).ok()? };
            let slot = self.bytes.chunks_exact(SLOT_SIZE).nth(usize::from(entry[3]))?;
            Some((key, slot.get(2..2 + usize::from(slot[1]))?))
        })
    }
}

/// Says whether a table and an index agree: the index is sorted by owner, system identification number and group,
/// rising, its unused entries are zero and at its end, and it has one entry true to each used slot and no more.
///
/// Refusals: TABLE, INDEX.
///
/// ```
/// use tarnoklej::{index_agrees, Refusal, INDEX_SIZE, TABLE_SIZE};
///
/// let (table, mut index) = ([0; TABLE_SIZE], [0; INDEX_SIZE]);
/// assert_eq!(index_agrees(&table, &index), Ok(()));
/// index[127] = 1;
/// assert_eq!(index_agrees(&table, &index), Err(Refusal::Index));
/// assert_eq!(index_agrees(&table[1..], &index), Err(Refusal::Table));
/// ```
pub fn index_agrees(table: &[u8], index: &[u8]) -> Result<(), Refusal> {
    Refusal::unless_done(ffi::index_agrees(table, index))
}

/// Writes the index of a table anew, whatever it held.
///
/// Refusals: TABLE, INDEX for a wrong size; with a refusal the index stays as it was.
///
/// ```
/// use tarnoklej::{example, store, write_index, Owner, Refusal, INDEX_SIZE, TABLE_SIZE};
///
/// let (mut table, mut index) = ([0; TABLE_SIZE], [0; INDEX_SIZE]);
/// store(&mut table, &mut index, Owner::One, &example::grid_k())?;
/// let mut other = [7; INDEX_SIZE];
/// write_index(&table, &mut other)?;
/// assert_eq!(other, index);
/// assert_eq!(write_index(&table, &mut other[1..]), Err(Refusal::Index));
/// # Ok::<(), Refusal>(())
/// ```
pub fn write_index(table: &[u8], index: &mut [u8]) -> Result<(), Refusal> {
    Refusal::unless_done(ffi::index_write(table, index))
}

/// Stores an owner's message under its key, that is owner, system identification number and group, in a table whose
/// index agrees with it, and leaves the two in agreement.
///
/// FULL is given exactly where the key is new to the owner and the owner holds [`OWNER_SLOTS`](crate::OWNER_SLOTS) or no
/// slot is free. While an owner holds fewer than 12 keys it never gets it, whatever the other owner does.
///
/// Refusals: TABLE, INDEX, SHORT, NUMBER, LENGTH, FILL, RANGE, FULL; with a refusal both buffers stay as they were.
///
/// ```
/// use tarnoklej::{example, store, Owner, Refusal, INDEX_SIZE, TABLE_SIZE};
///
/// let message = example::grid_k();
/// let (mut table, mut index) = ([0; TABLE_SIZE], [0; INDEX_SIZE]);
/// assert_eq!(store(&mut table, &mut index, Owner::Two, &message), Ok(()));
/// assert_eq!(table[..4], [2, 73, message[0], message[1]]);
/// assert_eq!(index[..5], [2, 7, 1, 0, 0]);
/// assert_eq!(store(&mut table, &mut index[1..], Owner::Two, &message), Err(Refusal::Index));
/// assert_eq!(store(&mut table[1..], &mut index[1..], Owner::Two, &message), Err(Refusal::Table));
/// ```
pub fn store(table: &mut [u8], index: &mut [u8], owner: Owner, message: &[u8]) -> Result<(), Refusal> {
    Refusal::unless_done(ffi::store(table, index, owner.number(), message))
}

/// Gives the message of an owner's key as the part of the table where it stands.
///
/// Of the index only the entries that a binary search names are read, and of the table one slot. Whether the two agree
/// is not asked; where they do, the message of the key is found if there is one.
///
/// Refusals: TABLE for a wrong size, INDEX for a wrong size, NONE, INDEX where the entry's slot is above 31 or is no used slot
/// of the key.
///
/// ```
/// use tarnoklej::{example, find, store, Group, Key, Owner, Refusal, INDEX_SIZE, TABLE_SIZE};
///
/// let (mut table, mut index) = ([0; TABLE_SIZE], [0; INDEX_SIZE]);
/// store(&mut table, &mut index, Owner::One, &example::grid_k())?;
/// let key = Key { owner: Owner::One, sin: 7, group: Group::Grid };
/// let found = find(&table, &index, key)?;
/// assert_eq!((found.at, found.probes), (2, 5));
/// assert_eq!(found.message, example::grid_k());
/// index[3] = 1;
/// assert_eq!(find(&table, &index, key), Err(Refusal::Index));
/// # Ok::<(), Refusal>(())
/// ```
pub fn find<'table>(table: &'table [u8], index: &[u8], key: Key) -> Result<Found<'table>, Refusal> {
    let found = ffi::find(table, index, key.owner.number(), key.sin, key.group.number());
    Refusal::unless_done(found.refusal)?;
    Ok(Found { at: found.at, message: &table[found.at..found.at + found.length], probes: found.probes })
}

/// Removes the message of an owner's key from a table whose index agrees with it, and leaves the two in agreement.
///
/// Refusals: TABLE, INDEX, NONE; with a refusal both buffers stay as they were.
///
/// ```
/// use tarnoklej::{example, remove, store, Group, Key, Owner, Refusal, INDEX_SIZE, TABLE_SIZE};
///
/// let (mut table, mut index) = ([0; TABLE_SIZE], [0; INDEX_SIZE]);
/// store(&mut table, &mut index, Owner::One, &example::grid_k())?;
/// let key = Key { owner: Owner::One, sin: 7, group: Group::Grid };
/// assert_eq!(remove(&mut table, &mut index, Key { owner: Owner::Two, ..key }), Err(Refusal::None));
/// assert_eq!(remove(&mut table, &mut index, key), Ok(()));
/// assert_eq!((table, index), ([0; TABLE_SIZE], [0; INDEX_SIZE]));
/// # Ok::<(), Refusal>(())
/// ```
pub fn remove(table: &mut [u8], index: &mut [u8], key: Key) -> Result<(), Refusal> {
    Refusal::unless_done(ffi::remove(table, index, key.owner.number(), key.sin, key.group.number()))
}
