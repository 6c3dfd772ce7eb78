//! The second program's own checks of the table with two owners.

use crate::history::{
    calls_of_other, calls_within, make, message, most_asked, storing, used_slots, with_others, Call, Dictionaries,
    Kept, Reply, ALWAYS_THERE,
};
use crate::random::Random;
use crate::refusal::Refusal;
use crate::selfcheck::Group;
use crate::table::{find, other_than, remove, store, MOST_HELD, OWNERS, SIZE, SLOT};

/// All groups of checks of the table.
pub fn groups() -> Vec<Group> {
    vec![
        sizes(),
        full(),
        no_slot_free(),
        same_sin(),
        owners(),
        histories(),
        other_calls(),
        thirteen(),
        damaged(),
        crowded(),
    ]
}

/// The sizes that document 02 prints.
fn sizes() -> Group {
    let mut group = Group::new("the table's sizes");
    group.equal("bytes of a table", SIZE, 4_224);
    group.equal("bytes of a slot", SLOT, 132);
    group.equal("slots that are always there for the other", ALWAYS_THERE, 12);
    group.equal("zeros are a table", find(&[0; SIZE], 1, 0, 0), Err(Refusal::None));
    group
}

/// Stores messages of a number of keys for an owner, from a system identification number on.
fn fill(group: &mut Group, table: &mut [u8], owner: u8, sins: std::ops::Range<u8>) {
    let mut random = Random::new(31);
    for sin in sins {
        group.equal("store", store(table, owner, &message(&mut random, 1025, sin)), Ok(()));
    }
}

/// Checks that a call is refused and changes no byte.
fn refused(group: &mut Group, table: &mut [u8], call: impl Fn(&mut [u8]) -> Result<(), Refusal>, refusal: Refusal) {
    let before = table.to_vec();
    group.equal("refused", call(table), Err(refusal));
    group.check(table == before, || "the table changed".to_string());
}

/// One owner's 21st key, the 12 slots that are there for the other, and a freed slot that is taken again.
fn full() -> Group {
    let mut group = Group::new("one owner's 21st key");
    let mut random = Random::new(32);
    for owner in OWNERS {
        let mut table = vec![0; SIZE];
        fill(&mut group, &mut table, owner, 0..20);
        let next = message(&mut random, 1025, 20);
        refused(&mut group, &mut table, |table| store(table, owner, &next), Refusal::Full);
        fill(&mut group, &mut table, other_than(owner), 0..12);
        refused(&mut group, &mut table, |table| store(table, other_than(owner), &next), Refusal::Full);
        group.equal("replaced", store(&mut table, owner, &message(&mut random, 1027, 19)), Ok(()));
        group.equal("removed", remove(&mut table, owner, 9, 2), Ok(()));
        group.equal("stored", store(&mut table, owner, &message(&mut random, 1021, 9)), Ok(()));
        group.equal("found", find(&table, owner, 9, 0).map(|f| f.0), Ok(9 * 132 + 2));
        group.equal("other group", find(&table, owner, 9, 2), Err(Refusal::None));
        group.equal("other owner", find(&table, other_than(owner), 9, 2).map(|f| f.0), Ok(29 * 132 + 2));
    }
    group
}

/// No slot is free while both owners hold fewer than 20.
fn no_slot_free() -> Group {
    let mut group = Group::new("no free slot");
    let mut random = Random::new(33);
    let next = message(&mut random, 1025, 99);
    for first in 13..20 {
        let mut table = vec![0; SIZE];
        fill(&mut group, &mut table, 1, 0..first);
        fill(&mut group, &mut table, 2, 0..32 - first);
        for owner in OWNERS {
            refused(&mut group, &mut table, |table| store(table, owner, &next), Refusal::Full);
            group.equal("replaced", store(&mut table, owner, &message(&mut random, 1026, 0)), Ok(()));
        }
        group.equal("removed", remove(&mut table, 1, 5, 2), Ok(()));
        group.equal("stored", store(&mut table, 2, &next), Ok(()));
        group.equal("found", find(&table, 2, 99, 2).map(|f| f.0), Ok(5 * 132 + 2));
    }
    group
}

/// The same system identification number and group for both owners.
fn same_sin() -> Group {
    let mut group = Group::new("both owners under the same system identification number");
    let mut random = Random::new(34);
    let [one, two] = [0, 0].map(|_| message(&mut random, 1023, 7));
    let mut table = vec![0; SIZE];
    group.equal("store", store(&mut table, 1, &one), Ok(()));
    group.equal("not shown to 2", find(&table, 2, 7, 1), Err(Refusal::None));
    refused(&mut group, &mut table, |table| remove(table, 2, 7, 1), Refusal::None);
    group.equal("store", store(&mut table, 2, &two), Ok(()));
    group.check(table[2..75] == one, || "1's message was replaced".to_string());
    group.check(table[134..207] == two, || "2's message is elsewhere".to_string());
    group.equal("remove", remove(&mut table, 1, 7, 1), Ok(()));
    group.equal("found by 2", find(&table, 2, 7, 1), Ok((134, 73)));
    group
}

/// Numbers that are no owner: behind TABLE, before all else.
fn owners() -> Group {
    let mut group = Group::new("numbers that are no owner");
    let sound = message(&mut Random::new(35), 1025, 3);
    for owner in (3..=255).chain([0]) {
        let mut table = vec![0; SIZE];
        for message in [&sound[..], &[]] {
            refused(&mut group, &mut table, |table| store(table, owner, message), Refusal::Owner);
            refused(&mut group, &mut table[1..], |table| store(table, owner, message), Refusal::Table);
        }
        for key_group in [2, 9] {
            refused(&mut group, &mut table, |table| find(table, owner, 3, key_group).map(|_| ()), Refusal::Owner);
            refused(&mut group, &mut table, |table| remove(table, owner, 3, key_group), Refusal::Owner);
        }
    }
    group
}

/// Plays calls on a fresh table, checks each against the dictionaries and the slots in use against the keys kept, and
/// gives the replies to one owner.
fn play(group: &mut Group, calls: &[Call], owner: u8) -> Vec<Reply> {
    let mut table = vec![0; SIZE];
    let (mut dictionaries, mut kept) = (Dictionaries::default(), Kept::default());
    let mut replies = Vec::new();
    for call in calls {
        let reply = make(&mut table, call);
        group.equal("reply", &reply, &dictionaries.reply(call));
        kept.note(call, reply.refusal);
        group.equal("slots in use", used_slots(&table), kept.counts());
        if call.owner == owner {
            replies.push(reply);
        }
    }
    replies
}

/// Random calls of two owners against a dictionary for each.
fn histories() -> Group {
    let mut group = Group::new("the table against a dictionary for each owner");
    let mut random = Random::new(36);
    for owner in OWNERS.repeat(6) {
        let sins = 6 + random.below(12);
        let own = calls_within(&mut random, owner, 250, sins, usize::MAX);
        let others = calls_of_other(&mut random, owner, 250, sins);
        let calls = with_others(&mut random, &own, &others);
        play(&mut group, &calls, owner);
    }
    group
}

/// Twelve keys at most: the same replies whatever the other calls.
fn other_calls() -> Group {
    let mut group = Group::new("one owner's replies with other calls of the other in between");
    let mut random = Random::new(37);
    for owner in OWNERS.repeat(6) {
        let own = calls_within(&mut random, owner, 150, 8, ALWAYS_THERE);
        group.equal("most keys", most_asked(&own, owner), ALWAYS_THERE);
        let [one, two] = [0, 0].map(|_| {
            let others = calls_of_other(&mut random, owner, 250, 30);
            let calls = with_others(&mut random, &own, &others);
            play(&mut group, &calls, owner)
        });
        group.check(one == two, || format!("owner {owner} got other replies"));
    }
    group
}

/// Twelve keys behind 20 of the other's are all stored, the thirteenth is not.
fn thirteen() -> Group {
    let mut group = Group::new("the thirteenth key behind 20 of the other's");
    for owner in OWNERS {
        for (keys, alike) in [(12, true), (13, false)] {
            let own = storing(owner, keys);
            group.equal("most keys", most_asked(&own, owner), keys as usize);
            let behind = [storing(other_than(owner), MOST_HELD as u8), own.clone()].concat();
            let [alone, behind] = [own, behind].map(|calls| play(&mut group, &calls, owner));
            group.equal("alike", alone == behind, alike);
            group.check(alone.iter().all(|reply| reply.refusal == 0), || "refused alone".to_string());
        }
    }
    group
}

/// Tables of wrong size or with one byte wrong.
fn damaged() -> Group {
    let mut group = Group::new("damaged tables");
    for size in [0, 132, 4_096, 4_223, 4_225] {
        group.equal("size", store(&mut vec![0; size], 1, &[]), Err(Refusal::Table));
        group.equal("size", find(&vec![0; size], 0, 0, 9), Err(Refusal::Table));
        group.equal("size", remove(&mut vec![0; size], 3, 0, 9), Err(Refusal::Table));
    }
    let mut table = vec![0; SIZE];
    store(&mut table, 1, &message(&mut Random::new(38), 1023, 5)).expect("stored");
    for at in (75..SIZE).chain([1]) {
        let mut other = table.clone();
        other[at] ^= 1;
        group.equal("stray byte", find(&other, 1, 5, 1), Err(Refusal::Table));
    }
    for owner in 0..=255 {
        let mut other = table.clone();
        other[0] = owner;
        let expected = if OWNERS.contains(&owner) { Ok((2, 73)) } else { Err(Refusal::Table) };
        group.equal("owner byte", find(&other, owner, 5, 1), expected);
    }
    table.copy_within(0..132, 1_320);
    group.equal("same key twice", find(&table, 1, 5, 1), Err(Refusal::Table));
    table[1_320] = 2;
    group.equal("same key for both", find(&table, 2, 5, 1), Ok((1_322, 73)));
    group
}

/// An owner with more than 20 slots.
fn crowded() -> Group {
    let mut group = Group::new("an owner with 21 slots");
    for owner in OWNERS {
        let mut table = vec![0; SIZE];
        fill(&mut group, &mut table, owner, 0..20);
        fill(&mut group, &mut table, other_than(owner), 20..32);
        for slot in 20..32 {
            let mut other = table.clone();
            other[slot * SLOT] = owner;
            group.equal("21 slots", find(&other, owner, 0, 2), Err(Refusal::Table));
            other[0] = other_than(owner);
            group.equal("20 slots", find(&other, owner, 1, 2), Ok((134, 25)));
        }
    }
    group
}
