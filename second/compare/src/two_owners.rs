//! Plays histories of two owners through the exported interface, each twice with other calls of the other owner in
//! between, from a fresh table and a fresh index (requests A8 and A9 of document 02).

use crate::messages::pick;
use crate::tally::Progress;
use second::history::{
    calls_of_other, calls_within, most_asked, storing, used_slots, with_others, Ask, Call, Dictionaries, Kept, Reply,
    ALWAYS_THERE,
};
use second::index::{agrees, INDEX_SIZE};
use second::random::Random;
use second::refusal::Refusal;
use second::table::{other_than, MOST_HELD, OWNERS, SIZE, SLOTS};
use tarnoklej::ffi;

/// The calls of the owner whose replies are compared, in one history.
const OWN_CALLS: usize = 150;
/// The fewest pairs of histories.
const LEAST_PAIRS: u64 = 8;

/// What was met in all pairs of histories.
#[derive(Default)]
pub struct Met {
    /// Pairs of histories.
    pub pairs: u64,
    /// Replies of the owner, of which each pair has two lists.
    pub replies: u64,
    /// Pairs in which the owner asked to hold twelve keys, and every slot was in use in one history and not in the other.
    pub only_one_full: u64,
    /// Calls of all owners, after each of which the slots in use were counted.
    pub calls: u64,
}

/// A history that was played.
struct Played {
    /// How many calls there were.
    calls: usize,
    /// What the owner got.
    replies: Vec<Reply>,
    /// Whether every slot was in use at some time.
    full: bool,
    /// What differed from the dictionaries or from the keys kept.
    difference: Option<String>,
}

/// How many pairs of histories are played for a number of inputs.
pub fn pairs_for(count: u64) -> u64 {
    (count / OWN_CALLS as u64).max(LEAST_PAIRS)
}

/// Makes a call on a table and an index of the library; the number of probes is no part of the reply.
fn ask_library(table: &mut [u8], index: &mut [u8], call: &Call) -> Reply {
    let (start, size, owner) = (table.as_mut_ptr(), table.len(), call.owner);
    let (entries, index_size) = (index.as_mut_ptr(), index.len());
    // SAFETY: the pointers and lengths are those of slices that do not overlap.
    let (refusal, at, length) = unsafe {
        match call.ask {
            Ask::Store(ref message) => {
                let (bytes, length) = (message.as_ptr(), message.len());
                (ffi::tarnoklej_store(start, size, entries, index_size, owner, bytes, length), 0, 0)
            }
            Ask::Remove(sin, group) => {
                (ffi::tarnoklej_remove(start, size, entries, index_size, owner, sin, group), 0, 0)
            }
            Ask::Find(sin, group) => {
                let found = ffi::tarnoklej_find(start, size, entries, index_size, owner, sin, group);
                (found.refusal, found.at, found.length)
            }
        }
    };
    Reply { refusal, shown: table[at..at + length].to_vec() }
}

/// Plays calls on a fresh table with a fresh index, which must agree after each.
fn play(calls: &[Call], owner: u8) -> Played {
    let (mut table, mut index) = (vec![0; SIZE], vec![0; INDEX_SIZE]);
    let (mut dictionaries, mut kept) = (Dictionaries::default(), Kept::default());
    let mut played = Played { calls: calls.len(), replies: Vec::new(), full: false, difference: None };
    for (turn, call) in calls.iter().enumerate() {
        let reply = ask_library(&mut table, &mut index, call);
        let expected = dictionaries.reply(call);
        kept.note(call, reply.refusal);
        let used = used_slots(&table);
        played.full |= used[0] == SLOTS;
        let agreement = agrees(&table, &index);
        let differs = reply != expected || used != kept.counts() || agreement != Ok(());
        if differs && played.difference.is_none() {
            played.difference = Some(format!(
                "call {turn}, {call:?}\nlibrary      {reply:?}, slots in use {used:?}, agreement {agreement:?}\n\
                 dictionaries {expected:?}, keys kept {:?}",
                kept.counts()
            ));
        }
        if call.owner == owner {
            played.replies.push(reply);
        }
    }
    played
}

/// The owner's replies in two histories that were played, where they are alike and nothing differs in either.
fn alike(own: &[Call], [one, two]: &[Played; 2]) -> Result<(), String> {
    if let Some(turn) = (0..own.len()).find(|&turn| one.replies[turn] != two.replies[turn]) {
        let (call, one, two) = (&own[turn], &one.replies[turn], &two.replies[turn]);
        return Err(format!("the owner's call {turn}, {call:?}\nonce  {one:?}\nagain {two:?}"));
    }
    [one, two].into_iter().find_map(|played| played.difference.clone()).map_or(Ok(()), Err)
}

/// Plays one pair of random histories.
fn random_pair(random: &mut Random, owner: u8, met: &mut Met) -> Result<(), String> {
    let sins = pick(random, &[5, 8, 20]);
    let own = calls_within(random, owner, OWN_CALLS, sins, ALWAYS_THERE);
    let most = most_asked(&own, owner);
    assert!(most <= ALWAYS_THERE, "the owner asked to hold {most} keys");
    let played = [[60, 250], [0, 120]].map(|counts| {
        let (count, sins) = (pick(random, &counts), pick(random, &[4, 10, 30, 256]));
        let others = calls_of_other(random, owner, count, sins);
        play(&with_others(random, &own, &others), owner)
    });
    alike(&own, &played)?;
    met.pairs += 1;
    met.replies += own.len() as u64;
    met.calls += played.iter().map(|played| played.calls as u64).sum::<u64>();
    met.only_one_full += u64::from(most == ALWAYS_THERE && played[0].full != played[1].full);
    Ok(())
}

/// Plays an owner's stores and finds of a number of keys, alone and behind 20 keys of the other's.
fn alone_and_behind(owner: u8, keys: u8) -> (Vec<Call>, [Played; 2]) {
    let own = storing(owner, keys);
    let behind = [storing(other_than(owner), MOST_HELD as u8), own.clone()].concat();
    let played = [&own, &behind].map(|calls| play(calls, owner));
    (own, played)
}

/// Twelve keys get the same replies alone and behind 20 of the other's; of thirteen the last is FULL behind them.
fn twelve_and_thirteen(owner: u8) -> Result<(), String> {
    let (own, played) = alone_and_behind(owner, ALWAYS_THERE as u8);
    alike(&own, &played)?;
    let (own, played) = alone_and_behind(owner, ALWAYS_THERE as u8 + 1);
    let [alone, behind] = played.each_ref().map(|played| &played.replies);
    let differing: Vec<usize> = (0..own.len()).filter(|&turn| alone[turn] != behind[turn]).collect();
    let (stored, found) = (ALWAYS_THERE, own.len() - 1);
    let expected = [Refusal::Full, Refusal::None].map(Refusal::number);
    if differing == [stored, found] && [stored, found].map(|turn| behind[turn].refusal) == expected {
        played.into_iter().find_map(|played| played.difference).map_or(Ok(()), Err)
    } else {
        Err(format!("of thirteen keys, calls {differing:?} differ\nalone  {alone:?}\nbehind {behind:?}"))
    }
}

impl Met {
    /// A line on what was met.
    pub fn line(&self) -> String {
        format!(
            "two owners: {} pairs of histories, {} replies alike with other calls of the other in between, in {} pairs with \
             twelve keys and a full table in one history alone; {} times the slots in use are the keys kept and the index \
             agrees; the thirteenth key differs",
            self.pairs, self.replies, self.only_one_full, self.calls
        )
    }
}

/// Plays pairs of histories, with owners exchanged in turn.
pub fn run(seed: u64, count: u64, progress: &mut Progress) -> Result<Met, String> {
    let mut random = Random::new(seed);
    let mut met = Met::default();
    for owner in OWNERS {
        twelve_and_thirteen(owner)
            .map_err(|difference| format!("histories of owner {owner}, alone and behind 20 keys: {difference}"))?;
    }
    for (pair, &owner) in (0..pairs_for(count)).zip(OWNERS.iter().cycle()) {
        random_pair(&mut random, owner, &mut met)
            .map_err(|difference| format!("histories of owner {owner}, pair {pair}: {difference}"))?;
        progress.step();
    }
    Ok(met)
}
