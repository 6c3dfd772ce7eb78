//! What can be wrong with an index.

use crate::index::{ENTRIES, ENTRY, INDEX_SIZE};
use crate::random::Random;
use crate::table::SLOTS;

/// How many kinds of wrong indexes there are.
pub const WAYS: u64 = 16;
/// Sizes of indexes that are refused.
pub const WRONG_SIZES: [usize; 8] = [0, 1, 4, 64, 124, 127, 129, 132];

/// The four bytes of an entry.
type Bytes = [u8; ENTRY];

/// An index in one of the ways wrong, of which some need an entry in use and leave an empty one as it is.
pub fn damaged_index(random: &mut Random, index: &[u8], way: u64) -> Vec<u8> {
    let mut entries: Vec<Bytes> =
        index.chunks_exact(ENTRY).map(|entry| entry.try_into().expect("four bytes")).collect();
    let used = entries.iter().filter(|entry| entry[0] != 0).count();
    match way % WAYS {
        0 => return resized(random, index),
        1 => return random.bytes(INDEX_SIZE),
        2 => entries[random.below(ENTRIES as u64) as usize][random.below(4) as usize] = random.bits() as u8,
        3 => stray_in_unused(random, &mut entries, used),
        4 => one_too_many(random, &mut entries, used),
        5 => entries.rotate_right(1 + random.below(ENTRIES as u64 - 1) as usize),
        way if used > 0 => in_used(random, &mut entries, used, way),
        _ => (),
    }
    entries.concat()
}

/// The index with bytes too few or too many.
fn resized(random: &mut Random, index: &[u8]) -> Vec<u8> {
    let mut other = index.to_vec();
    other.resize(WRONG_SIZES[random.below(WRONG_SIZES.len() as u64) as usize], 0);
    other
}

/// Sets a byte of an entry that is not in use, where there is one.
fn stray_in_unused(random: &mut Random, entries: &mut [Bytes], used: usize) {
    if used < ENTRIES {
        let at = used + random.below((ENTRIES - used) as u64) as usize;
        entries[at][random.below(4) as usize] = 1 + random.below(3) as u8;
    }
}

/// Adds an entry in its place, of any key or of one that is there, where there is room for it.
fn one_too_many(random: &mut Random, entries: &mut [Bytes], used: usize) {
    if used == ENTRIES {
        return;
    }
    let slot = random.below(SLOTS as u64) as u8;
    let mut more = [1 + random.below(2) as u8, random.below(40) as u8, random.below(3) as u8, slot];
    if used > 0 && random.below(2) == 0 {
        more = entries[random.below(used as u64) as usize];
    }
    entries[used] = more;
    entries[..=used].sort();
}

/// Damages an entry in use, of which there is one.
fn in_used(random: &mut Random, entries: &mut [Bytes], used: usize, way: u64) {
    let [one, other] = [0, 0].map(|_| random.below(used as u64) as usize);
    match way {
        6 => entries.swap(one, other),
        7 => entries[one] = [0; ENTRY],
        8 => entries[one][0] = 0,
        9 => entries[one][3] = random.below(SLOTS as u64) as u8,
        10 => entries[one][3] = SLOTS as u8,
        11 => entries[one][3] = random.within(SLOTS as i64, 255) as u8,
        12 => entries[one][2] = random.below(5) as u8,
        13 => (entries[one][3], entries[other][3]) = (entries[other][3], entries[one][3]),
        14 => entries[one][0] ^= 3,
        _ => {
            entries[one..].rotate_left(1);
            entries[ENTRIES - 1] = [0; ENTRY];
        }
    }
}
