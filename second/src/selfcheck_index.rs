//! The second program's own checks of the index beside a table.

use crate::history::{
    calls_of_other, calls_within, make, make_with_index, message, most_asked, with_others, Call, Dictionaries, Reply,
    ALWAYS_THERE,
};
use crate::index::{agrees, find, named_entries, remove, store, write_index, ENTRIES, ENTRY, INDEX_SIZE};
use crate::index_damage::{damaged_index, WAYS, WRONG_SIZES};
use crate::random::Random;
use crate::refusal::Refusal;
use crate::selfcheck::Group;
use crate::table::{self, Key, OWNERS, SIZE, SLOT};

/// All groups of checks of the index.
pub fn groups() -> Vec<Group> {
    vec![
        sizes(),
        halving(),
        probes(),
        written_anew(),
        agreement(),
        refusals(),
        unused_above(),
        slot_of_entry(),
        histories(),
        other_calls(),
        only_what_is_named(),
    ]
}

/// A table with its index.
#[derive(Clone, PartialEq, Eq)]
struct Pair {
    table: Vec<u8>,
    index: Vec<u8>,
}

impl Pair {
    /// An empty table and an empty index.
    fn fresh() -> Self {
        Pair { table: vec![0; SIZE], index: vec![0; INDEX_SIZE] }
    }

    /// A table of messages 1025, stored in turn for each owner under its system identification numbers.
    fn holding(group: &mut Group, keys: impl Iterator<Item = (u8, u8)>) -> Self {
        let mut pair = Pair::fresh();
        let mut random = Random::new(51);
        for (owner, sin) in keys {
            let message = message(&mut random, 1025, sin);
            group.equal("store", store(&mut pair.table, &mut pair.index, owner, &message), Ok(()));
            group.equal("agree", agrees(&pair.table, &pair.index), Ok(()));
        }
        pair
    }

    /// A full table of 16 keys of each owner, whose entry i is that of slot 31 - i.
    fn full(group: &mut Group) -> Self {
        Pair::holding(group, (0..32).rev().map(|i| (1 + i / 16, 3 * (i % 16))))
    }

    /// Whether the two agree.
    fn agrees(&self) -> Result<(), Refusal> {
        agrees(&self.table, &self.index)
    }

    /// The numbers of a find in group 2.
    fn find(&self, owner: u8, sin: u8) -> Result<(usize, usize, u8), Refusal> {
        find(&self.table, &self.index, owner, sin, 2).map(|found| (found.at, found.length, found.probes))
    }

    /// Checks that a call is refused and changes no byte.
    fn refused(
        &mut self,
        group: &mut Group,
        call: impl Fn(&mut [u8], &mut [u8]) -> Result<(), Refusal>,
        refusal: Refusal,
    ) {
        let before = self.clone();
        group.equal("refused", call(&mut self.table, &mut self.index), Err(refusal));
        group.check(*self == before, || "a byte changed".to_string());
    }
}

/// The sizes that document 02 prints, and wrong ones behind TABLE and before OWNER.
fn sizes() -> Group {
    let mut group = Group::new("the index's sizes");
    group.equal("bytes of an index", INDEX_SIZE, 128);
    group.equal("entries", ENTRIES, 32);
    group.equal("zeros agree with zeros", Pair::fresh().agrees(), Ok(()));
    for size in WRONG_SIZES {
        let mut pair = Pair { index: vec![0; size], ..Pair::fresh() };
        group.equal("size", pair.agrees(), Err(Refusal::Index));
        group.equal("size", pair.find(0, 9), Err(Refusal::Index));
        pair.refused(&mut group, |t, i| write_index(t, i), Refusal::Index);
        pair.refused(&mut group, |t, i| store(t, i, 0, &[]), Refusal::Index);
        pair.refused(&mut group, |t, i| remove(t, i, 0, 9, 9), Refusal::Index);
        pair.table.push(0);
        group.equal("table", pair.agrees(), Err(Refusal::Table));
        group.equal("table", pair.find(0, 9), Err(Refusal::Table));
        pair.refused(&mut group, |t, i| write_index(t, i), Refusal::Table);
        pair.refused(&mut group, |t, i| store(t, i, 0, &[]), Refusal::Table);
        pair.refused(&mut group, |t, i| remove(t, i, 0, 9, 9), Refusal::Table);
    }
    group
}

/// The entries that the rule names, worked by hand.
fn halving() -> Group {
    let mut group = Group::new("the entries that the halving rule names");
    let zeros = vec![0; INDEX_SIZE];
    let full = Pair::full(&mut group).index;
    let named = |index: &[u8], owner: u8, sin: u8| named_entries(index, Key { owner, sin, group: 2 });
    group.equal("no entry in use", named(&zeros, 1, 0), vec![15, 7, 3, 1, 0]);
    group.equal("below all", named(&full, 1, 0)[..5].to_vec(), vec![15, 7, 3, 1, 0]);
    group.equal("above all", named(&full, 2, 255), vec![15, 23, 27, 29, 30, 31]);
    group.equal("the last", named(&full, 2, 45), vec![15, 23, 27, 29, 30, 31]);
    group.equal("the last but one", named(&full, 2, 42), vec![15, 23, 27, 29, 30]);
    group.equal("the middle", named(&full, 1, 45), vec![15]);
    group.equal("behind the middle", named(&full, 2, 0), vec![15, 23, 19, 17, 16]);
    group.equal("between entries 16 and 17", named(&full, 2, 1), vec![15, 23, 19, 17, 16]);
    group.equal("before the middle", named(&full, 1, 42), vec![15, 7, 11, 13, 14]);
    for owner in OWNERS {
        for sin in 0..=255 {
            group.check(named(&full, owner, sin).len() <= 6, || "more than 6 entries".to_string());
        }
    }
    group
}

/// How many entries of a full index are found with each number of probes.
fn probes() -> Group {
    let mut group = Group::new("numbers of probes in a full index");
    let full = Pair::full(&mut group);
    let mut met = [0; 7];
    for entry in full.index.chunks(ENTRY) {
        let found = full.find(entry[0], entry[1]);
        group.equal("place", found.map(|f| f.0), Ok(entry[3] as usize * SLOT + 2));
        met[found.map_or(0, |f| f.2) as usize] += 1;
    }
    group.equal("met", met, [0, 1, 2, 4, 8, 16, 1]);
    group
}

/// An index written anew, whatever it held, for tables of any slots.
fn written_anew() -> Group {
    let mut group = Group::new("an index written anew");
    let mut random = Random::new(52);
    let mut pair = Pair::full(&mut group);
    let expected = pair.index.clone();
    for _ in 0..4 {
        pair.index = random.bytes(INDEX_SIZE);
        group.equal("disagrees", pair.agrees(), Err(Refusal::Index));
        group.equal("written", write_index(&pair.table, &mut pair.index), Ok(()));
        group.check(pair.index == expected, || "another index".to_string());
    }
    pair.table[SLOT..].fill(0);
    group.equal("written", write_index(&pair.table, &mut pair.index), Ok(()));
    group.equal("one entry", pair.index[..5].to_vec(), vec![2, 45, 2, 0, 0]);
    pair.table[5 * SLOT] = 1;
    pair.refused(&mut group, |t, i| write_index(t, i), Refusal::Table);
    group
}

/// A table and its index agree exactly where the index is the one written anew.
fn agreement() -> Group {
    let mut group = Group::new("agreement of damaged indexes");
    let mut random = Random::new(53);
    let (mut kept, mut lost) = (0, 0);
    for turn in 0..40 * WAYS {
        let keys = (0..random.below(33) as u8).map(|i| (1 + i % 2, 7 * i));
        let pair = Pair::holding(&mut group, keys);
        let index = damaged_index(&mut random, &pair.index, turn);
        let expected = if index == pair.index { Ok(()) } else { Err(Refusal::Index) };
        group.equal("agreement", agrees(&pair.table, &index), expected);
        *(if expected.is_ok() { &mut kept } else { &mut lost }) += 1;
    }
    group.check(kept > 0 && lost > 30 * WAYS, || format!("{kept} agree, {lost} do not"));
    group
}

/// TABLE, INDEX, OWNER, and then as without an index; with a refusal nothing changes.
fn refusals() -> Group {
    let mut group = Group::new("the order of refusals with an index");
    let mut pair = Pair::full(&mut group);
    let sound = message(&mut Random::new(54), 1025, 99);
    pair.refused(&mut group, |t, i| store(t, i, 1, &sound), Refusal::Full);
    pair.refused(&mut group, |t, i| store(t, i, 1, &[]), Refusal::Short);
    pair.refused(&mut group, |t, i| store(t, i, 3, &[]), Refusal::Owner);
    pair.refused(&mut group, |t, i| remove(t, i, 3, 0, 9), Refusal::Owner);
    pair.refused(&mut group, |t, i| remove(t, i, 2, 0, 9), Refusal::None);
    group.equal("no owner", pair.find(3, 0), Err(Refusal::Owner));
    group.equal("no key", pair.find(1, 1), Err(Refusal::None));
    group.equal("group", find(&pair.table, &pair.index, 1, 0, 3).err(), Some(Refusal::None));
    pair.index[127] = 99;
    pair.refused(&mut group, |t, i| store(t, i, 3, &[]), Refusal::Index);
    pair.refused(&mut group, |t, i| remove(t, i, 3, 0, 9), Refusal::Index);
    group.equal("find asks for no agreement", pair.find(3, 0), Err(Refusal::Owner));
    pair.table[SIZE - 1] = 1;
    pair.refused(&mut group, |t, i| store(t, i, 3, &[]), Refusal::Table);
    pair.refused(&mut group, |t, i| remove(t, i, 3, 0, 9), Refusal::Table);
    group.equal("nor for a table that is well formed", pair.find(2, 45), Err(Refusal::Index));
    group.equal("and shows what is true", pair.find(2, 42), Ok((134, 25, 5)));
    group
}

/// Owner 0 is above every key, whatever stands behind it.
fn unused_above() -> Group {
    let mut group = Group::new("owner 0 above every key");
    let mut pair = Pair::full(&mut group);
    pair.index[60..64].copy_from_slice(&[0, 255, 255, 255]);
    for (sin, slot) in [(0, 31), (42, 17)] {
        group.equal("stands before it", pair.find(1, sin), Ok((slot * SLOT + 2, 25, 5)));
    }
    group.equal("stood there", pair.find(1, 45), Err(Refusal::None));
    for sin in 0..48 {
        group.equal("stands behind it", pair.find(2, sin), Err(Refusal::None));
    }
    group
}

/// The slot of the entry that is met: above 31, free, of another key, damaged.
fn slot_of_entry() -> Group {
    let mut group = Group::new("the slot of the entry that is met");
    let full = Pair::full(&mut group);
    for slot in 0..=255 {
        let mut pair = full.clone();
        pair.index[63] = slot;
        let expected = if slot == 16 { Ok((16 * SLOT + 2, 25, 1)) } else { Err(Refusal::Index) };
        group.equal("slot", pair.find(1, 45), expected);
    }
    for at in 0..SLOT {
        let mut pair = full.clone();
        pair.table[16 * SLOT + at] ^= 1;
        let key = table::held(&pair.table[16 * SLOT..17 * SLOT]).and_then(|held| held.key());
        let same = key == Some(Key { owner: 1, sin: 45, group: 2 });
        let expected = if same { Ok((16 * SLOT + 2, 25, 1)) } else { Err(Refusal::Index) };
        group.equal("byte", pair.find(1, 45), expected);
        group.equal("another slot", pair.find(1, 42), Ok((17 * SLOT + 2, 25, 5)));
    }
    group
}

/// Plays calls on a fresh table with a fresh index, checks each against the dictionaries and against the walk on a table
/// without an index, and gives the replies to one owner.
fn play(group: &mut Group, calls: &[Call], owner: u8) -> Vec<Reply> {
    let mut pair = Pair::fresh();
    let mut walked = vec![0; SIZE];
    let mut dictionaries = Dictionaries::default();
    let mut replies = Vec::new();
    for call in calls {
        let reply = make_with_index(&mut pair.table, &mut pair.index, call);
        group.equal("reply", &reply, &dictionaries.reply(call));
        group.equal("walk", &reply, &make(&mut walked, call));
        group.check(walked == pair.table, || "another table than without an index".to_string());
        group.equal("agree", pair.agrees(), Ok(()));
        if call.owner == owner {
            replies.push(reply);
        }
    }
    replies
}

/// Random calls of two owners against the dictionaries and the walk.
fn histories() -> Group {
    let mut group = Group::new("the table with its index against dictionaries and the walk");
    let mut random = Random::new(55);
    for owner in OWNERS.repeat(4) {
        let sins = 6 + random.below(12);
        let own = calls_within(&mut random, owner, 200, sins, usize::MAX);
        let others = calls_of_other(&mut random, owner, 200, sins);
        let calls = with_others(&mut random, &own, &others);
        play(&mut group, &calls, owner);
    }
    group
}

/// Twelve keys at most: the same replies with an index, whatever the other calls.
fn other_calls() -> Group {
    let mut group = Group::new("one owner's replies with an index and other calls of the other");
    let mut random = Random::new(56);
    for owner in OWNERS.repeat(3) {
        let own = calls_within(&mut random, owner, 150, 8, ALWAYS_THERE);
        group.equal("most keys", most_asked(&own, owner), ALWAYS_THERE);
        let [one, two] = [0, 0].map(|_| {
            let others = calls_of_other(&mut random, owner, 250, 30);
            let calls = with_others(&mut random, &own, &others);
            play(&mut group, &calls, owner)
        });
        group.check(one == two, || format!("owner {owner} got other replies"));
    }
    group
}

/// A find is the same where all bytes but those of the named entries and of one slot are others.
fn only_what_is_named() -> Group {
    let mut group = Group::new("a find reads the named entries and one slot");
    let mut random = Random::new(57);
    let full = Pair::full(&mut group);
    for turn in 0..600 {
        let index = damaged_index(&mut random, &full.index, 1 + turn % (WAYS - 1));
        let (owner, sin) = (1 + random.below(2) as u8, random.below(48) as u8);
        let named = named_entries(&index, Key { owner, sin, group: 2 });
        let mut other = random.bytes(INDEX_SIZE);
        named.iter().for_each(|entry| {
            let bytes = entry * ENTRY..(entry + 1) * ENTRY;
            other[bytes.clone()].copy_from_slice(&index[bytes]);
        });
        let slot = other[named[named.len() - 1] * ENTRY + 3] as usize;
        let mut table = random.bytes(SIZE);
        if slot < ENTRIES {
            table[slot * SLOT..(slot + 1) * SLOT].copy_from_slice(&full.table[slot * SLOT..(slot + 1) * SLOT]);
        }
        group.equal("find", find(&table, &other, owner, sin, 2), find(&full.table, &index, owner, sin, 2));
    }
    group
}
