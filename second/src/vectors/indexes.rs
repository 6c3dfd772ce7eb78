//! Cases of the index beside a table: what it holds, how it is searched, and what is wrong with it.

use super::tables::{poke_slot, History};
use super::Vector;
use crate::index::{ENTRIES, ENTRY, INDEX_SIZE};
use crate::index_damage::WRONG_SIZES;
use crate::samples::Sample;
use crate::table::{OWNERS, SIZE, SLOT, SLOTS};

/// The keys of the histories with damaged indexes, in the order in which they are stored: owner, number, system
/// identification number, group. Their entries name the slots 3, 0, 2, 5, 1 and 4.
const SIX: [(u8, u16, u8, u8); 6] =
    [(1, 1027, 2, 2), (2, 1023, 2, 1), (1, 1026, 9, 2), (1, 1021, 2, 0), (2, 1025, 7, 2), (2, 1022, 2, 0)];

/// All cases of the index.
pub fn cases() -> Vec<Vector> {
    let histories = [
        wrong_sizes(),
        growing(),
        searching("search-full", 32),
        searching("search-some", 21),
        damaged_by_hand(),
        damaged_slots(),
        order_of_refusals(),
        written_anew(),
    ];
    histories.into_iter().flat_map(|history| history.cases).collect()
}

/// A table of six messages with its index.
fn six_messages(name: &str) -> History {
    let mut history = History::new(name, SIZE);
    SIX.into_iter().for_each(|(owner, number, sin, _)| history.store_any(owner, number, sin));
    history.look_at_index();
    history
}

/// Every kind of call, and both buffers.
fn every_call(history: &mut History, owner: u8, sin: u8, group: u8) {
    history.agrees();
    history.all_calls(owner, sin, group);
    history.look_at_index();
}

/// Indexes of wrong sizes beside a table that is in use, empty or of a wrong size itself.
fn wrong_sizes() -> History {
    let mut history = six_messages("index-sizes");
    for size in WRONG_SIZES.into_iter().step_by(2).chain([127]) {
        history.fresh_index(size);
        every_call(&mut history, 1, 2, 2);
        history.find(3, 2, 9);
        history.store(3, &[]);
        history.remove(0, 2, 9);
        history.rebuild();
        history.look_at_index();
    }
    for (table, index) in [(SIZE, 127), (SIZE, 129), (SIZE - 1, 127), (SIZE + 1, INDEX_SIZE)] {
        history.fresh(table);
        history.fresh_index(index);
        every_call(&mut history, 1, 2, 2);
        history.rebuild();
    }
    history.fresh(SIZE);
    every_call(&mut history, 1, 2, 2);
    history
}

/// An index that grows to 32 entries and shrinks to none, each entry coming in and going out at another place.
fn growing() -> History {
    let mut history = History::new("index-grow", SIZE);
    let key = |turn: u8| (OWNERS[turn as usize % 2], turn.wrapping_mul(77));
    for turn in 0..SLOTS as u8 {
        let (owner, sin) = key(turn);
        history.store_any(owner, 1025 + u16::from(turn) % 3, sin);
        history.look_at_index();
    }
    history.agrees();
    for turn in (0..SLOTS as u8).map(|turn| turn.wrapping_mul(13) % 32) {
        let (owner, sin) = key(turn);
        history.find(owner, sin, 2);
        history.remove(owner, sin, 2);
        history.look_at_index();
    }
    history.agrees();
    history.look();
    history
}

/// Finds every key of a table with a number of slots in use, and keys below, between and above them.
fn searching(name: &str, keys: u8) -> History {
    let mut history = History::new(name, SIZE);
    let key = |i: u8| (1 + i % 2, 10 + 5 * (i / 2));
    for i in 0..keys {
        let (owner, sin) = key(i.wrapping_mul(11) % keys);
        history.store_any(owner, 1024, sin);
    }
    for (owner, sin) in (0..keys).map(key) {
        history.find(owner, sin, 1);
    }
    for (sin, group) in [(0, 0), (9, 2), (10, 0), (10, 2), (45, 0), (46, 1), (84, 1), (85, 2), (86, 0), (255, 2)] {
        history.find_for_both(sin, group);
    }
    for group in [3, 4, 128, 255] {
        history.find_for_both(10, group);
    }
    for owner in [0, 3, 255] {
        history.find(owner, 10, 1);
    }
    history
}

/// Finds the six keys.
fn find_six(history: &mut History) {
    SIX.into_iter().for_each(|(owner, _, sin, group)| history.find(owner, sin, group));
}

/// Changes the index, makes every call, and writes it anew.
fn with_index(history: &mut History, index: &[u8]) {
    let changed: Vec<usize> = (0..INDEX_SIZE).filter(|&at| history.index[at] != index[at]).collect();
    changed.into_iter().for_each(|at| history.poke_index(at, index[at]));
    history.agrees();
    find_six(history);
    history.store_any(2, 1025, 7);
    history.remove(1, 2, 2);
    history.look();
    history.look_at_index();
    history.rebuild();
    history.look_at_index();
}

/// The four bytes of an entry.
type Bytes = [u8; ENTRY];
/// A change of an index.
type Change<'a> = &'a dyn Fn(&mut Vec<Bytes>);

/// Indexes that do not agree with six messages, one for each thing that document 02 asks of an index.
fn damaged_by_hand() -> History {
    let mut history = six_messages("index-damaged");
    let sound: Vec<Bytes> = history.index.chunks(ENTRY).map(|entry| entry.try_into().expect("four bytes")).collect();
    let changes: [Change; 22] = [
        &|entries| entries.swap(0, 1),
        &|entries| entries.swap(2, 5),
        &|entries| entries[..6].reverse(),
        &|entries| entries.copy_within(1.., 0),
        &|entries| entries.truncate(5),
        &|entries| entries[3] = [0; 4],
        &|entries| entries[5] = [0; 4],
        &|entries| entries.insert(3, [1, 50, 2, 3]),
        &|entries| entries.insert(6, [2, 200, 2, 6]),
        &|entries| entries.insert(2, entries[2]),
        &|entries| entries.insert(0, [0; 4]),
        &|entries| entries.rotate_left(6),
        &|entries| entries[1][3] = 4,
        &|entries| entries[1][3] = 6,
        &|entries| entries[4][3] = 32,
        &|entries| entries[4][3] = 255,
        &|entries| entries[2][0] = 0,
        &|entries| entries[31] = [0, 0, 0, 1],
        &|entries| entries[6] = [0, 1, 0, 0],
        &|entries| entries[15] = [0, 255, 255, 0],
        &|entries| entries[15] = [1, 2, 1, 0],
        &|entries| entries[15] = [3, 0, 0, 0],
    ];
    for change in changes {
        let mut entries = sound.clone();
        change(&mut entries);
        entries.resize(ENTRIES, [0; 4]);
        with_index(&mut history, &entries.concat());
    }
    history
}

/// Slots that an entry names and that are not used slots of its key: free, of another owner, number or length, with a
/// stray byte, with a fill bit.
fn damaged_slots() -> History {
    let mut history = six_messages("index-slots");
    let slot = 4 * SLOT;
    for (at, value) in
        [(0, 0), (0, 1), (0, 3), (1, 0), (1, 24), (1, 26), (1, 128), (26, 1), (27, 1), (131, 1), (3, 0x20)]
    {
        let before = history.table[slot + at];
        history.poke(slot + at, value);
        history.find_for_both(7, 2);
        history.find(1, 9, 2);
        history.agrees();
        history.poke(slot + at, before);
    }
    history.remove(2, 7, 2);
    history.poke_index(60, 2);
    history.poke_index(61, 7);
    history.poke_index(62, 2);
    for slot in [4, 0, 1, 31, 32, 33, 128, 255] {
        history.poke_index(63, slot);
        history.find(2, 7, 2);
    }
    poke_slot(&mut history, 31, 2, &Sample::zeros(1025).with(147, 7).bytes());
    for slot in [30, 31, 32, 63] {
        history.poke_index(63, slot);
        history.find_for_both(7, 2);
        history.agrees();
    }
    history
}

/// TABLE before INDEX, INDEX before OWNER, OWNER before all else; what find asks for and what it does not.
fn order_of_refusals() -> History {
    let mut history = six_messages("index-order");
    for owner in [1, 3] {
        for (table, index) in [(0, 0), (0, 9), (9, 0), (9, 9)] {
            history.poke(SIZE - 1, table);
            history.poke_index(INDEX_SIZE - 1, index);
            every_call(&mut history, owner, 2, 2);
            history.store(owner, &[]);
            history.remove(owner, 2, 3);
            history.find(owner, 2, 3);
            history.poke(SIZE - 1, 0);
            history.poke_index(INDEX_SIZE - 1, 0);
        }
    }
    history
}

/// An index written anew over any bytes, for tables that are empty, full or not well formed.
fn written_anew() -> History {
    let mut history = History::full("index-anew", 2);
    for (at, value) in [(0, 0), (1, 255), (63, 7), (64, 1), (126, 99), (127, 0)] {
        history.poke_index(at, value);
        history.agrees();
        history.rebuild();
        history.look_at_index();
    }
    history.poke_index(5, 200);
    history.poke(20 * SLOT, 2);
    history.rebuild();
    history.agrees();
    history.look_at_index();
    history.poke(20 * SLOT, 1);
    history.rebuild();
    history.agrees();
    history.look_at_index();
    history.fresh(SIZE);
    (0..INDEX_SIZE).step_by(9).for_each(|at| history.poke_index(at, 1));
    history.agrees();
    history.rebuild();
    history.look_at_index();
    history
}
