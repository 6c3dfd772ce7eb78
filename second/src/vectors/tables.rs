//! Cases of the table with two owners: histories of calls, each beginning with a fresh table and a fresh index.

use super::{Call, OnTable, Vector};
use crate::index::{remove, store, write_index, INDEX_SIZE};
use crate::layouts::NUMBERS;
use crate::random::Random;
use crate::samples::Sample;
use crate::table::{group_of, other_than, MOST_HELD, OWNERS, SIZE, SLOT, SLOTS, SLOT_HEAD, SLOT_ROOM};

/// Numbers that are no owner.
const NO_OWNERS: [u8; 5] = [0, 3, 127, 128, 255];
/// The system identification numbers from 0 on that one owner can hold in one group.
const SINS_OF_ONE: u8 = MOST_HELD as u8;
/// The system identification numbers from 0 on that the other owner can hold beside them.
const SINS_OF_OTHER: u8 = SLOTS as u8 - SINS_OF_ONE;

/// A history under way: the table, its index, and the cases so far.
pub struct History {
    name: String,
    /// The table as it stands.
    pub table: Vec<u8>,
    /// The index as it stands.
    pub index: Vec<u8>,
    /// The cases so far.
    pub cases: Vec<Vector>,
    /// Where its messages come from.
    pub random: Random,
}

impl History {
    /// Begins a history with a table and an index of zeros.
    pub fn new(name: &str, size: usize) -> Self {
        let seed = name.bytes().fold(41, |seed: u64, b| seed.wrapping_mul(31).wrapping_add(b as u64));
        let (name, random) = (name.to_string(), Random::new(seed));
        let mut history = History { name, table: Vec::new(), index: Vec::new(), cases: Vec::new(), random };
        history.fresh(size);
        history
    }

    /// Begins a history of an owner with a full table: 20 slots of the owner, then 12 of the other.
    pub fn full(name: &str, owner: u8) -> Self {
        let mut history = History::new(name, SIZE);
        history.fill(owner, SINS_OF_ONE);
        history.fill(other_than(owner), SINS_OF_OTHER);
        history
    }

    /// Adds a case, numbered in its history.
    fn add(&mut self, call: OnTable) {
        let name = format!("table-{}-{}-{}", self.name, self.cases.len(), call.kind());
        self.cases.push(Vector { name, call: Call::OnTable(call) });
    }

    /// Gives the last case the name that the papers have for it.
    fn call_last(&mut self, name: &str) {
        self.cases.last_mut().expect("a case").name = name.to_string();
    }

    /// Takes a fresh table of zeros and a fresh index.
    pub fn fresh(&mut self, size: usize) {
        self.table = vec![0; size];
        self.add(OnTable::Fresh { size });
        self.fresh_index(INDEX_SIZE);
    }

    /// Takes a fresh index of zeros.
    pub fn fresh_index(&mut self, size: usize) {
        self.index = vec![0; size];
        self.add(OnTable::FreshIndex { size });
    }

    /// Puts a byte into the index.
    pub fn poke_index(&mut self, at: usize, value: u8) {
        self.index[at] = value;
        self.add(OnTable::PokeIndex { at, value });
    }

    /// Asks whether table and index agree.
    pub fn agrees(&mut self) {
        self.add(OnTable::Agrees);
    }

    /// Writes the index anew.
    pub fn rebuild(&mut self) {
        let _ = write_index(&self.table, &mut self.index);
        self.add(OnTable::Rebuild);
    }

    /// Looks at all bytes of the index.
    pub fn look_at_index(&mut self) {
        self.add(OnTable::IndexBytes);
    }

    /// Puts a byte into the table.
    pub fn poke(&mut self, at: usize, value: u8) {
        self.table[at] = value;
        self.add(OnTable::Poke { at, value });
    }

    /// Stores a message.
    pub fn store(&mut self, owner: u8, message: &[u8]) {
        let _ = store(&mut self.table, &mut self.index, owner, message);
        self.add(OnTable::Store { owner, message: message.to_vec() });
    }

    /// Stores a random message of a number and a system identification number.
    pub fn store_any(&mut self, owner: u8, number: u16, sin: u8) {
        let message = self.message(number, sin);
        self.store(owner, &message);
    }

    /// Stores random messages 1025 under the first system identification numbers.
    pub fn fill(&mut self, owner: u8, sins: u8) {
        (0..sins).for_each(|sin| self.store_any(owner, 1025, sin));
    }

    /// A random message of short names, a number and a system identification number.
    fn message(&mut self, number: u16, sin: u8) -> Vec<u8> {
        let random = &mut self.random;
        let name = random.bytes(3);
        Sample::new(number, [&name, &name[..1]], |f| random.within(f.least(), f.greatest()))
            .with(147, sin as i64)
            .bytes()
    }

    /// Removes a key.
    pub fn remove(&mut self, owner: u8, sin: u8, group: u8) {
        let _ = remove(&mut self.table, &mut self.index, owner, sin, group);
        self.add(OnTable::Remove { owner, sin, group });
    }

    /// Finds a key.
    pub fn find(&mut self, owner: u8, sin: u8, group: u8) {
        self.add(OnTable::Find { owner, sin, group });
    }

    /// Finds a key for both owners.
    pub fn find_for_both(&mut self, sin: u8, group: u8) {
        OWNERS.into_iter().for_each(|owner| self.find(owner, sin, group));
    }

    /// Looks at all bytes of the table.
    pub fn look(&mut self) {
        self.add(OnTable::Bytes);
    }

    /// Makes every kind of call on a table that should be refused, and looks at it.
    pub fn all_calls(&mut self, owner: u8, sin: u8, group: u8) {
        self.find(owner, sin, group);
        self.store_any(owner, 1025, sin);
        self.remove(owner, sin, group);
        self.look();
    }
}

/// All cases of the table.
pub fn cases() -> Vec<Vector> {
    let histories = [
        filling("fill", 1),
        filling("fill-2", 2),
        no_free_slot(),
        replacing(),
        freeing(),
        equal_sins(),
        both_owners(),
        no_owners(),
        groups(),
        refused_messages(),
        wrong_sizes(),
        wrong_owner_bytes(),
        wrong_lengths(),
        stray_bytes(),
        last_zeros(),
        same_key_twice(),
        crowded(),
        refused_inside(),
        held_from_start(),
        longest_messages(),
        behind_the_other("alone", 12, 0),
        behind_the_other("behind", 12, SINS_OF_ONE),
        behind_the_other("alone-13", 13, 0),
        behind_the_other("behind-13", 13, SINS_OF_ONE),
        random_calls("random-few", 6, 240),
        random_calls("random-more", 9, 400),
        random_calls("random-many", 24, 400),
    ];
    histories.into_iter().flat_map(|history| history.cases).collect()
}

/// Fills the table to one owner's 21st key, then to the other's 13th.
fn filling(name: &str, owner: u8) -> History {
    let other = other_than(owner);
    let mut history = History::new(name, SIZE);
    history.look();
    for sin in 0..SINS_OF_ONE {
        history.store_any(owner, 1025, sin);
        history.look();
    }
    history.store_any(owner, 1025, SINS_OF_ONE);
    if owner == 1 {
        history.call_last("run-21st-key");
    }
    history.store_any(owner, 1021, 0);
    history.store_any(owner, 1023, SINS_OF_ONE - 1);
    history.look();
    for sin in 0..SINS_OF_OTHER {
        history.store_any(other, 1025, sin);
        history.look();
    }
    history.store_any(other, 1025, SINS_OF_OTHER);
    history.store_any(other, 1024, 0);
    history.store_any(owner, 1025, SINS_OF_ONE);
    history.look();
    (0..=SINS_OF_ONE).for_each(|sin| history.find_for_both(sin, 2));
    history
}

/// No slot is free while both owners hold fewer than 20; a slot that one frees is there for both.
fn no_free_slot() -> History {
    let mut history = History::new("no-free", SIZE);
    for first in [16, 13, 19] {
        history.fresh(SIZE);
        history.fill(1, first);
        history.fill(2, SLOTS as u8 - first);
        history.look();
        for owner in OWNERS {
            history.store_any(owner, 1025, 99);
            history.store_any(owner, 1021, 0);
            history.store_any(owner, 1027, 5);
            history.find_for_both(5, 2);
        }
        history.look();
        history.remove(1, 3, 2);
        history.store_any(2, 1026, 99);
        history.find_for_both(99, 2);
        history.store_any(1, 1026, 99);
        history.remove(2, 4, 2);
        history.store_any(1, 1026, 99);
        history.find_for_both(99, 2);
        history.look();
    }
    history
}

/// Replaces the message in every slot of a full table by one of another length.
fn replacing() -> History {
    let mut history = History::full("replace", 2);
    history.look();
    for slot in 0..SLOTS as u8 {
        let (owner, sin) = if slot < SINS_OF_ONE { (2, slot) } else { (1, slot - SINS_OF_ONE) };
        let number = if sin % 2 == 0 { 1026 } else { 1027 };
        history.store_any(owner, number, sin);
        history.find_for_both(sin, 2);
        history.look();
    }
    history.store_any(1, 1026, 201);
    history.store_any(2, 1026, 201);
    history.look();
    history
}

/// Removes first, middle and last slots and stores again, so that the first freed slot is taken.
fn freeing() -> History {
    let mut history = History::full("free", 1);
    for (owner, sin) in [(2, 11), (1, 0), (1, 17), (2, 5), (1, 5)] {
        history.remove(owner, sin, 2);
        history.find_for_both(sin, 2);
        history.remove(owner, sin, 2);
        history.look();
    }
    for (owner, sin) in [(2, 100), (1, 101), (1, 102), (2, 103), (1, 104), (2, 105), (1, 106)] {
        history.store_any(owner, 1026, sin);
        history.find_for_both(sin, 2);
        history.look();
    }
    for sin in 1..17 {
        history.remove(1, sin, 2);
    }
    history.store_any(2, 1024, 1);
    history.find_for_both(1, 1);
    history.store_any(1, 1025, 17);
    history.find_for_both(17, 2);
    history.look();
    history
}

/// All seven numbers under one system identification number, which are three keys for each owner.
fn equal_sins() -> History {
    let mut history = History::new("equal-sins", SIZE);
    for (owner, sin) in [(1, 0), (2, 255), (2, 0), (1, 255)] {
        for number in NUMBERS {
            history.store_any(owner, number, sin);
            (0..3).for_each(|group| history.find_for_both(sin, group));
            history.look();
        }
        for number in NUMBERS.into_iter().rev() {
            history.store_any(owner, number, sin);
            history.find(owner, sin, group_of(number));
        }
        history.look();
    }
    history.remove(1, 0, 1);
    (0..3).for_each(|group| history.find_for_both(0, group));
    history.find_for_both(255, 1);
    history.look();
    history
}

/// Both owners under the same system identification number: neither sees, replaces or removes what the other has.
fn both_owners() -> History {
    let mut history = History::new("both", SIZE);
    for (turn, number) in NUMBERS.into_iter().enumerate() {
        let owner = OWNERS[turn % 2];
        let (other, group) = (other_than(owner), group_of(number));
        history.store_any(owner, number, 7);
        history.find_for_both(7, group);
        history.remove(other, 7, group);
        history.look();
        history.store_any(other, number, 7);
        history.find_for_both(7, group);
        history.look();
        history.store_any(owner, number, 7);
        history.find_for_both(7, group);
        history.remove(other, 7, group);
        history.find_for_both(7, group);
        history.look();
        history.remove(owner, 7, group);
        history.find_for_both(7, group);
        history.look();
    }
    history
}

/// Numbers that are no owner on empty, used, full and damaged tables, with sound and refused messages and bad groups.
fn no_owners() -> History {
    let mut history = History::new("no-owner", SIZE);
    for owner in NO_OWNERS {
        history.all_calls(owner, 3, 2);
    }
    history = no_owner_calls(history);
    history.fresh(SIZE);
    history.fill(1, SINS_OF_ONE);
    history = no_owner_calls(history);
    history.fill(2, SINS_OF_OTHER);
    history = no_owner_calls(history);
    history.poke(SIZE - 1, 1);
    no_owner_calls(history)
}

/// Calls with numbers that are no owner, of a key that may be there and of one that is not.
fn no_owner_calls(mut history: History) -> History {
    for owner in NO_OWNERS {
        history.store_any(owner, 1025, 3);
        history.store_any(owner, 1025, 77);
        history.store(owner, &[]);
        for message in refused_list().iter().skip(2).step_by(2) {
            history.store(owner, message);
        }
        for (sin, group) in [(3, 2), (77, 2), (3, 3), (3, 255)] {
            history.find(owner, sin, group);
            history.remove(owner, sin, group);
        }
        history.look();
    }
    history
}

/// Groups that are not 0 to 2, and keys that are not there.
fn groups() -> History {
    let mut history = History::new("groups", SIZE);
    for group in [0, 1, 2, 3, 4, 127, 128, 255] {
        history.find_for_both(0, group);
        history.remove(1, 0, group);
        history.remove(2, 0, group);
    }
    for owner in OWNERS {
        history.store_any(owner, 1025, 7);
        for group in [0, 1, 3, 4, 255] {
            history.find_for_both(7, group);
            history.remove(owner, 7, group);
        }
        for sin in [6, 8, 0, 255] {
            history.find_for_both(sin, 2);
            history.remove(owner, sin, 2);
        }
        history.look();
        history.find_for_both(7, 2);
    }
    history
}

/// Refused messages stored in an empty table, in a used one, where the owner holds 20 slots and where no slot is free.
fn refused_messages() -> History {
    let mut history = History::new("refused", SIZE);
    let refused = refused_list();
    let store_all = |history: &mut History| {
        for owner in OWNERS {
            refused.iter().for_each(|message| history.store(owner, message));
        }
        history.look();
    };
    store_all(&mut history);
    history.store_any(1, 1025, 5);
    store_all(&mut history);
    history.find_for_both(5, 2);
    history.fill(1, SINS_OF_ONE);
    store_all(&mut history);
    history.store_any(1, 1025, 99);
    history.fill(2, SINS_OF_OTHER);
    store_all(&mut history);
    history.store_any(2, 1025, 99);
    history.look();
    history
}

/// One message for each of refusals 1 to 5, all of them under system identification number 5 where they have one.
fn refused_list() -> Vec<Vec<u8>> {
    let sound = Sample::zeros(1025).with(147, 5);
    let mut filled = sound.bytes();
    filled[24] |= 1;
    let mut unknown = sound.bytes();
    unknown[0] = 0x3f;
    unknown[1] = 0xc0;
    vec![
        vec![],
        vec![0x40],
        unknown,
        sound.bytes()[..24].to_vec(),
        [sound.bytes(), vec![0]].concat(),
        filled,
        sound.with(171, 8_181_818_182).bytes(),
        vec![0x40; 128],
        Sample::zeros(1021).with(152, 162_001).bytes(),
    ]
}

/// Tables of wrong sizes, with sound and refused messages, bad groups and numbers that are no owner.
fn wrong_sizes() -> History {
    let mut history = History::new("sizes", 0);
    for size in [0, 1, 128, 131, 132, 133, 4_092, 4_096, 4_223, 4_225, 4_300] {
        history.fresh(size);
        OWNERS.into_iter().for_each(|owner| history.all_calls(owner, 3, 2));
        history.store(1, &[]);
        history.find(2, 3, 9);
        history.remove(1, 3, 255);
        history.all_calls(0, 3, 2);
        history.all_calls(3, 3, 9);
    }
    history.fresh(SIZE);
    history.all_calls(1, 3, 2);
    history
}

/// A table of three messages, of which the middle one is to be damaged.
pub fn three_messages(name: &str) -> History {
    let mut history = History::new(name, SIZE);
    history.store_any(1, 1025, 1);
    history.store_any(2, 1027, 2);
    history.store_any(1, 1026, 3);
    history
}

/// Changes one byte, makes all calls, and puts the byte back.
fn damage(history: &mut History, at: usize, value: u8) {
    let before = history.table[at];
    history.poke(at, value);
    history.agrees();
    history.all_calls(1, 1, 2);
    history.find(2, 2, 2);
    history.poke(at, before);
}

/// Owner bytes that are wrong, in used and in free slots, and one that gives a message to the other owner.
fn wrong_owner_bytes() -> History {
    let mut history = three_messages("owner-bytes");
    for owner in NO_OWNERS {
        damage(&mut history, SLOT, owner);
        damage(&mut history, 0, owner);
    }
    for owner in [1, 2, 3, 255] {
        damage(&mut history, 3 * SLOT, owner);
        damage(&mut history, 31 * SLOT, owner);
    }
    history.look();
    for owner in [1, 2] {
        history.poke(SLOT, owner);
        history.find_for_both(2, 2);
        history.store_any(1, 1026, 2);
        history.rebuild();
        history.find_for_both(2, 2);
        history.store_any(1, 1026, 2);
        history.find_for_both(2, 2);
        history.look();
        history.look_at_index();
    }
    history
}

/// Length bytes that are wrong.
fn wrong_lengths() -> History {
    let mut history = three_messages("lengths");
    for length in [0, 1, 2, 32, 34, 52, 127, 128, 129, 130, 131, 255] {
        damage(&mut history, SLOT + 1, length);
    }
    for length in [1, 25, 127, 128, 255] {
        damage(&mut history, 3 * SLOT + 1, length);
        damage(&mut history, 31 * SLOT + 1, length);
    }
    history.find_for_both(2, 2);
    history.look();
    history
}

/// Stray bytes behind a message and in free slots.
fn stray_bytes() -> History {
    let mut history = three_messages("strays");
    for at in [27, 28, 128, SLOT + 35, SLOT + 128, 2 * SLOT + 32, 2 * SLOT + 100, 2 * SLOT + 128] {
        damage(&mut history, at, 1);
    }
    for at in [3 * SLOT + 2, 3 * SLOT + 128, 4 * SLOT + 64, 31 * SLOT + 2, SIZE - 4] {
        damage(&mut history, at, 128);
    }
    history.store(1, &[]);
    history.poke(SIZE - 1, 255);
    history.store(1, &[]);
    history.find(2, 2, 3);
    history.remove(1, 9, 9);
    history.poke(SIZE - 1, 0);
    history.find(2, 2, 2);
    history
}

/// Each of the three zeros at the end of a slot set, behind a short and a longest message and in free slots.
fn last_zeros() -> History {
    let mut history = three_messages("zeros");
    history.store(2, &longest(1022, 4));
    history.find(2, 4, 0);
    history.look();
    for slot in [0, 1, 3, 4, 31] {
        for zero in 0..3 {
            let at = slot * SLOT + SLOT_HEAD + SLOT_ROOM + zero;
            damage(&mut history, at, [1, 128, 255][zero]);
        }
    }
    history.find(2, 4, 0);
    history.look();
    history
}

/// Puts an owner's message into a slot of the table byte by byte.
pub fn poke_slot(history: &mut History, slot: usize, owner: u8, message: &[u8]) {
    history.poke(slot * SLOT, owner);
    history.poke(slot * SLOT + 1, message.len() as u8);
    for (i, &byte) in message.iter().enumerate() {
        if byte != 0 {
            history.poke(slot * SLOT + SLOT_HEAD + i, byte);
        }
    }
}

/// The same key in two slots, by the same number and by two numbers of one group; for both owners it is sound.
fn same_key_twice() -> History {
    let mut history = History::new("twice", SIZE);
    for (owner, first, second) in [(1, 1025, 1025), (2, 1025, 1027), (1, 1021, 1022), (2, 1023, 1024)] {
        history.fresh(SIZE);
        let (other, group) = (other_than(owner), group_of(first));
        history.store(owner, &Sample::zeros(first).with(147, 77).bytes());
        poke_slot(&mut history, 20, owner, &Sample::zeros(second).with(147, 77).bytes());
        history.all_calls(owner, 77, group);
        history.find(other, 78, group);
        history.store(other, &Sample::zeros(1025).with(147, 78).bytes());
        history.rebuild();
        history.poke(20 * SLOT, other);
        history.find_for_both(77, group);
        history.all_calls(other, 77, group);
        history.rebuild();
        history.all_calls(other, 77, group);
        history.find_for_both(77, group);
        let sin_byte = SLOT_HEAD + if group == 0 { 3 } else { 2 };
        let value = history.table[sin_byte];
        history.poke(sin_byte, value ^ 0x10);
        history.all_calls(owner, 77, group);
        history.rebuild();
        history.all_calls(owner, 77, group);
        history.look_at_index();
    }
    history
}

/// More than 20 slots of one owner in an otherwise sound table.
fn crowded() -> History {
    let mut history = History::new("crowded", SIZE);
    for owner in OWNERS {
        let other = other_than(owner);
        history.fresh(SIZE);
        history.fill(owner, SINS_OF_ONE);
        (100..112).for_each(|sin| history.store_any(other, 1025, sin));
        for slot in [20, 31] {
            history.poke(slot * SLOT, owner);
            OWNERS.into_iter().for_each(|owner| history.all_calls(owner, 3, 2));
            history.all_calls(0, 3, 2);
            history.poke(slot * SLOT, other);
        }
        history.look();
        (20..SLOTS).for_each(|slot| history.poke(slot * SLOT, owner));
        history.all_calls(owner, 3, 2);
        (12..SLOTS).for_each(|slot| history.poke(slot * SLOT, other));
        history.all_calls(other, 100, 2);
        history.rebuild();
        history.all_calls(other, 100, 2);
        history.store_any(other, 1025, 200);
        history.store_any(other, 1025, 201);
        history.store_any(owner, 1025, 201);
        history.look();
        history.fresh(SIZE);
        history.fill(owner, SINS_OF_ONE);
        poke_slot(&mut history, 25, owner, &Sample::zeros(1025).with(147, 99).bytes());
        history.all_calls(other, 99, 2);
        history.rebuild();
    }
    history
}

/// Messages inside the table that are refused for each of reasons 1 to 5.
fn refused_inside() -> History {
    let mut history = three_messages("inside");
    let first = SLOT + SLOT_HEAD;
    let last = first + 32;
    let filled = history.table[last] | 1;
    damage(&mut history, last, filled);
    let number = history.table[first];
    damage(&mut history, first, number ^ 0x80);
    let second = history.table[first + 1];
    damage(&mut history, first + 1, second ^ 0x40);
    for owner in OWNERS {
        history.fresh(SIZE);
        let sound = Sample::zeros(1025).with(147, 1);
        poke_slot(&mut history, 3, owner, &sound.with(171, 8_181_818_182).bytes());
        history.all_calls(owner, 1, 2);
        history.fresh(SIZE);
        poke_slot(&mut history, 3, owner, &Sample::zeros(1021).with(152, 162_001).bytes());
        history.all_calls(owner, 1, 2);
        history.fresh(SIZE);
        poke_slot(&mut history, 3, owner, &[0x40]);
        history.all_calls(owner, 1, 2);
    }
    history
}

/// Well-formed tables that hold messages of both owners before the first call, not from the first slot on.
fn held_from_start() -> History {
    let mut history = History::new("first", SIZE);
    poke_slot(&mut history, 31, 1, &Sample::zeros(1025).with(147, 5).bytes());
    history.find_for_both(5, 2);
    history.rebuild();
    history.find_for_both(5, 2);
    poke_slot(&mut history, 2, 2, &Sample::zeros(1021).with(147, 5).bytes());
    history.agrees();
    history.rebuild();
    history.find_for_both(5, 0);
    for (owner, sin) in [(1, 6), (2, 6), (1, 8)] {
        history.store_any(owner, 1025, sin);
        history.find_for_both(sin, 2);
    }
    history.store_any(1, 1026, 5);
    history.find_for_both(5, 2);
    history.look();
    history.remove(1, 5, 0);
    history.remove(2, 5, 0);
    history.remove(2, 5, 2);
    history.remove(1, 5, 2);
    history.look();
    history.store_any(2, 1025, 5);
    history.find_for_both(5, 2);
    history.look();
    history
}

/// A message of a number with two names of 31 characters and a system identification number.
fn longest(number: u16, sin: i64) -> Vec<u8> {
    let name = [0xff; 31];
    Sample::new(number, [&name, &name], |f| f.least()).with(147, sin).bytes()
}

/// The longest messages, which fill a slot to its three zeros, replaced by the shortest of their group.
fn longest_messages() -> History {
    let mut history = History::new("longest", SIZE);
    for (owner, number, sin) in [(1, 1022, 0), (2, 1021, 1), (2, 1022, 0)] {
        history.store(owner, &longest(number, sin));
        history.find_for_both(sin as u8, 0);
        history.look();
    }
    for length in [126, 128, 130] {
        history.poke(1, length);
        history.all_calls(2, 1, 0);
    }
    history.poke(1, 127);
    for (owner, sin) in [(2, 0), (1, 0), (2, 1)] {
        history.store(owner, &Sample::zeros(1021).with(147, sin).bytes());
        history.find_for_both(sin as u8, 0);
        history.look();
    }
    history
}

/// An owner's keys stored, found, replaced and removed behind a number of the other's.
fn behind_the_other(name: &str, keys: u8, others: u8) -> History {
    let mut history = History::new(name, SIZE);
    history.fill(2, others);
    for sin in 0..keys {
        history.store(1, &Sample::usual(1025).with(147, i64::from(sin)).bytes());
    }
    (0..keys).for_each(|sin| history.find(1, sin, 2));
    history.store(1, &Sample::usual(1027).with(147, 0).bytes());
    history.find(1, 0, 2);
    history.remove(1, keys - 1, 2);
    history.find(1, keys - 1, 2);
    history.store(1, &Sample::usual(1026).with(147, 50).bytes());
    history.find(1, 50, 2);
    history.look();
    history
}

/// An owner by turns, one in sixteen a number that is no owner.
fn any_owner(random: &mut Random) -> u8 {
    if random.below(16) == 0 {
        NO_OWNERS[random.below(5) as usize]
    } else {
        OWNERS[random.below(2) as usize]
    }
}

/// Random calls of both owners over a number of system identification numbers.
fn random_calls(name: &str, sins: u64, calls: usize) -> History {
    let mut history = History::new(name, SIZE);
    for call in 0..calls {
        let owner = any_owner(&mut history.random);
        let sin = history.random.below(sins) as u8;
        let group = history.random.below(3) as u8;
        match history.random.below(10) {
            0..=5 => {
                let number = NUMBERS[history.random.below(7) as usize];
                history.store_any(owner, number, sin);
            }
            6 => history.remove(owner, sin, group),
            _ => history.find(owner, sin, group),
        }
        if call % 3 == 2 {
            history.look();
        }
        if call % 9 == 8 {
            history.look_at_index();
        }
    }
    history.agrees();
    history
}
