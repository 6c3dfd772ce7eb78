//! Lists of calls on a shared table, and what they come to by dictionaries alone (requests A7 and A8 of document 02).

use crate::damage::Damage;
use crate::index;
use crate::layouts::NUMBERS;
use crate::random::Random;
use crate::refusal::{number_of, Refusal};
use crate::samples::Sample;
use crate::table::{find, group_of, key_of, other_than, remove, store, Key, MOST_HELD, OWNERS, SLOT, SLOTS};
use std::collections::{HashMap, HashSet};

/// The keys that are always there for one owner, whatever the other does.
pub const ALWAYS_THERE: usize = SLOTS - MOST_HELD;

/// What a call asks for.
#[derive(Clone, PartialEq, Eq, Debug)]
pub enum Ask {
    /// To store a message.
    Store(Vec<u8>),
    /// To find the message of a system identification number and a group.
    Find(u8, u8),
    /// To remove the message of a system identification number and a group.
    Remove(u8, u8),
}

/// A call with its owner number, which may be that of no owner.
#[derive(Clone, PartialEq, Eq, Debug)]
pub struct Call {
    /// Who calls.
    pub owner: u8,
    /// What is asked for.
    pub ask: Ask,
}

/// What a caller gets, without the place in the table.
#[derive(Clone, PartialEq, Eq, Debug)]
pub struct Reply {
    /// The refusal number, 0 where the call is done.
    pub refusal: u8,
    /// The message bytes shown.
    pub shown: Vec<u8>,
}

impl Reply {
    /// A reply that shows nothing.
    fn bare<T>(answer: &Result<T, Refusal>) -> Self {
        Reply { refusal: number_of(answer), shown: Vec::new() }
    }
}

/// Makes a call on a table of the second program.
pub fn make(table: &mut [u8], call: &Call) -> Reply {
    match &call.ask {
        Ask::Store(message) => Reply::bare(&store(table, call.owner, message)),
        Ask::Remove(sin, group) => Reply::bare(&remove(table, call.owner, *sin, *group)),
        Ask::Find(sin, group) => {
            let found = find(table, call.owner, *sin, *group);
            let shown = found.map_or(Vec::new(), |(at, length)| table[at..at + length].to_vec());
            Reply { refusal: number_of(&found), shown }
        }
    }
}

/// Makes a call on a table with its index of the second program.
pub fn make_with_index(table: &mut [u8], index: &mut [u8], call: &Call) -> Reply {
    match &call.ask {
        Ask::Store(message) => Reply::bare(&index::store(table, index, call.owner, message)),
        Ask::Remove(sin, group) => Reply::bare(&index::remove(table, index, call.owner, *sin, *group)),
        Ask::Find(sin, group) => {
            let found = index::find(table, index, call.owner, *sin, *group);
            let shown = found.map_or(Vec::new(), |found| table[found.at..found.at + found.length].to_vec());
            Reply { refusal: number_of(&found), shown }
        }
    }
}

/// What each owner last stored under its keys and did not remove since.
#[derive(Default)]
pub struct Dictionaries(HashMap<Key, Vec<u8>>);

impl Dictionaries {
    /// How many keys an owner holds.
    fn count_of(&self, owner: u8) -> usize {
        self.0.keys().filter(|key| key.owner == owner).count()
    }

    /// Keeps a message, with refusals 1 to 5 and the rule for FULL.
    fn keep(&mut self, owner: u8, message: &[u8]) -> Result<(), Refusal> {
        let key = key_of(owner, message)?;
        let new = !self.0.contains_key(&key);
        if new && (self.count_of(owner) == MOST_HELD || self.0.len() == SLOTS) {
            return Err(Refusal::Full);
        }
        self.0.insert(key, message.to_vec());
        Ok(())
    }

    /// The reply to a call.
    pub fn reply(&mut self, call: &Call) -> Reply {
        let owner = call.owner;
        if !OWNERS.contains(&owner) {
            return Reply::bare(&Err::<(), _>(Refusal::Owner));
        }
        match call.ask {
            Ask::Store(ref message) => Reply::bare(&self.keep(owner, message)),
            Ask::Remove(sin, group) => Reply::bare(&self.0.remove(&Key { owner, sin, group }).ok_or(Refusal::None)),
            Ask::Find(sin, group) => {
                let held = self.0.get(&Key { owner, sin, group }).ok_or(Refusal::None);
                Reply { refusal: number_of(&held), shown: held.cloned().unwrap_or_default() }
            }
        }
    }
}

/// The keys of one owner in a dictionary without a limit, from its own calls alone.
#[derive(Default)]
pub struct Asked(HashSet<Key>);

impl Asked {
    /// How many keys the dictionary holds after a call.
    pub fn after(&mut self, call: &Call) -> usize {
        match call.ask {
            Ask::Store(ref message) => self.0.extend(key_of(call.owner, message)),
            Ask::Remove(sin, group) => drop(self.0.remove(&Key { owner: call.owner, sin, group })),
            Ask::Find(..) => (),
        }
        self.0.len()
    }

    /// Whether a dictionary of at most a number of keys has no more of them after a call.
    fn stays_within(&self, call: &Call, most: usize) -> bool {
        let Ask::Store(message) = &call.ask else { return true };
        let new = key_of(call.owner, message).is_ok_and(|key| !self.0.contains(&key));
        !new || self.0.len() < most
    }
}

/// The most keys that an owner asks to hold at once.
pub fn most_asked(calls: &[Call], owner: u8) -> usize {
    let mut asked = Asked::default();
    calls.iter().filter(|call| call.owner == owner).map(|call| asked.after(call)).max().unwrap_or(0)
}

/// The keys stored and not removed since, by the calls answered 0.
#[derive(Default)]
pub struct Kept(HashSet<Key>);

impl Kept {
    /// Counts a call with its refusal number.
    pub fn note(&mut self, call: &Call, refusal: u8) {
        if refusal != 0 {
            return;
        }
        match call.ask {
            Ask::Store(ref message) => self.0.extend(key_of(call.owner, message)),
            Ask::Remove(sin, group) => drop(self.0.remove(&Key { owner: call.owner, sin, group })),
            Ask::Find(..) => (),
        }
    }

    /// How many there are, in all and of each owner.
    pub fn counts(&self) -> [usize; 3] {
        let of = |owner: u8| self.0.iter().filter(|key| key.owner == owner).count();
        [self.0.len(), of(OWNERS[0]), of(OWNERS[1])]
    }
}

/// How many slots of a table are not all zero, in all and by the owner byte.
pub fn used_slots(table: &[u8]) -> [usize; 3] {
    let used = || table.chunks(SLOT).filter(|slot| slot.iter().any(|&byte| byte != 0));
    let of = |owner: u8| used().filter(|slot| slot[0] == owner).count();
    [used().count(), of(OWNERS[0]), of(OWNERS[1])]
}

/// A message of a number and a system identification number.
pub fn message(random: &mut Random, number: u16, sin: u8) -> Vec<u8> {
    Sample::any(random, number).with(147, sin as i64).bytes()
}

/// A message of one of the first system identification numbers, one in ten damaged.
fn any_message(random: &mut Random, sins: u64) -> Vec<u8> {
    let number = NUMBERS[random.below(7) as usize];
    let sin = random.below(sins) as u8;
    let sound = message(random, number, sin);
    if random.below(10) == 0 {
        Damage::any(random, sound.len()).done_to(&sound)
    } else {
        sound
    }
}

/// What a caller asks for, of ten calls a number of stores, two removals, and finds.
fn any_ask(random: &mut Random, sins: u64, stores: u64) -> Ask {
    let turn = random.below(10);
    if turn < stores {
        return Ask::Store(any_message(random, sins));
    }
    let sin = random.below(sins) as u8;
    let groups = if random.below(8) == 0 { 256 } else { 3 };
    let group = random.below(groups) as u8;
    if turn < stores + 2 {
        Ask::Remove(sin, group)
    } else {
        Ask::Find(sin, group)
    }
}

/// Random calls of an owner that never asks to hold more than a number of keys at once.
pub fn calls_within(random: &mut Random, owner: u8, count: usize, sins: u64, most: usize) -> Vec<Call> {
    let mut asked = Asked::default();
    let mut calls = Vec::new();
    while calls.len() < count {
        let call = Call { owner, ask: any_ask(random, sins, 5) };
        if asked.stays_within(&call, most) {
            asked.after(&call);
            calls.push(call);
        }
    }
    calls
}

/// Random calls of the other owner, one in twelve of them with a number that is no owner.
pub fn calls_of_other(random: &mut Random, owner: u8, count: usize, sins: u64) -> Vec<Call> {
    let none = [0, 3, 255, 128 + owner];
    let call = |_| {
        let owner = if random.below(12) == 0 { none[random.below(4) as usize] } else { other_than(owner) };
        Call { owner, ask: any_ask(random, sins, 7) }
    };
    (0..count).map(call).collect()
}

/// An owner's calls with calls of others in between, both in their order; one time in three the others begin.
pub fn with_others(random: &mut Random, own: &[Call], others: &[Call]) -> Vec<Call> {
    let first = if random.below(3) == 0 { random.below(others.len() as u64 + 1) as usize } else { 0 };
    let (mut own, mut others_left) = (own.iter(), others[first..].iter());
    let mut calls = others[..first].to_vec();
    while own.len() + others_left.len() > 0 {
        let turn = random.below((own.len() + others_left.len()) as u64) as usize;
        let next = if turn < own.len() { own.next() } else { others_left.next() };
        calls.extend(next.cloned());
    }
    calls
}

/// An owner's calls that store a number of keys and find each of them.
pub fn storing(owner: u8, keys: u8) -> Vec<Call> {
    let message = |sin: u8| Sample::usual(1025).with(147, sin as i64).bytes();
    let stores = (0..keys).map(|sin| Ask::Store(message(sin)));
    let finds = (0..keys).map(|sin| Ask::Find(sin, group_of(1025)));
    stores.chain(finds).map(|ask| Call { owner, ask }).collect()
}
