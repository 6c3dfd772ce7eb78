//! Messages to try the calls on: sound, damaged, truncated and random.

use second::fields::by_df;
use second::layouts::NUMBERS;
use second::random::Random;
use second::samples::{refused, Sample};

/// How many kinds of messages there are.
pub const KINDS: u64 = 16;

/// One element of a slice that is not empty.
pub fn pick<T: Copy>(random: &mut Random, among: &[T]) -> T {
    among[place(random, among)]
}

/// A place in a slice that is not empty.
pub fn place<T>(random: &mut Random, slice: &[T]) -> usize {
    random.below(slice.len() as u64) as usize
}

/// A room that is often just enough, one too few or one too many, and at most a given one.
pub fn any_room(random: &mut Random, needed: usize, most: usize) -> usize {
    match random.below(6) {
        0 => needed - 1,
        1 => needed + 1,
        2 => random.below(most as u64) as usize,
        3 => most,
        _ => needed,
    }
}

/// A row of any number.
pub fn any_sample(random: &mut Random) -> Sample {
    let number = pick(random, &NUMBERS);
    Sample::any(random, number)
}

/// The row with one field that fits its width but not its range, where it has such a field.
pub fn outside_range(random: &mut Random, sample: &Sample) -> Sample {
    let ranged: Vec<u16> = sample.dfs.iter().copied().filter(|&df| !refused(by_df(df)).is_empty()).collect();
    if ranged.is_empty() {
        return sample.clone();
    }
    let df = pick(random, &ranged);
    let values = refused(by_df(df));
    sample.with(df, values[place(random, &values)].1)
}

/// A sound message of any number.
pub fn sound(random: &mut Random) -> Vec<u8> {
    any_sample(random).bytes()
}

/// A message of one of the kinds, with room for nothing behind it.
pub fn of_kind(random: &mut Random, kind: u64) -> Vec<u8> {
    let message = match kind % KINDS {
        0..=3 => sound(random),
        4 => one_bit_wrong(random),
        5 => burst(random),
        6 => changed(random, |bytes, at| drop(bytes.drain(at..=at))),
        7 => changed(random, |bytes, at| bytes.insert(at, bytes[at])),
        8 => changed(random, Vec::truncate),
        9 => extended(random),
        10 => fill_set(random),
        11 => {
            let sample = any_sample(random);
            outside_range(random, &sample).bytes()
        }
        12 => any_bits(random),
        13 => random_bytes(random),
        14 => unknown_number(random),
        _ => short(random),
    };
    message.into_boxed_slice().into_vec()
}

/// A sound message of which one bit is wrong.
fn one_bit_wrong(random: &mut Random) -> Vec<u8> {
    let mut bytes = sound(random);
    let at = place(random, &bytes);
    bytes[at] ^= 1 << random.below(8);
    bytes
}

/// A sound message of which some bytes in a row are random.
fn burst(random: &mut Random) -> Vec<u8> {
    let mut bytes = sound(random);
    let first = place(random, &bytes);
    let last = (first + 1 + random.below(8) as usize).min(bytes.len());
    let noise = random.bytes(last - first);
    bytes[first..last].copy_from_slice(&noise);
    bytes
}

/// A sound message changed at one of its places.
fn changed(random: &mut Random, change: impl FnOnce(&mut Vec<u8>, usize)) -> Vec<u8> {
    let mut bytes = sound(random);
    let at = place(random, &bytes);
    change(&mut bytes, at);
    bytes
}

/// A sound message with bytes behind it.
fn extended(random: &mut Random) -> Vec<u8> {
    let mut bytes = sound(random);
    let more = 1 + random.below(140) as usize;
    bytes.extend(if random.below(2) == 0 { vec![0; more] } else { random.bytes(more) });
    bytes
}

/// A sound message of which one of the last four bits is set, mostly a fill bit.
fn fill_set(random: &mut Random) -> Vec<u8> {
    let mut bytes = sound(random);
    let last = bytes.len() - 1;
    bytes[last] |= 1 << random.below(4);
    bytes
}

/// A message of random names and random bits in every field behind the number, which is of the right length.
fn any_bits(random: &mut Random) -> Vec<u8> {
    let number = pick(random, &NUMBERS);
    let names = [0, 1].map(|_| {
        let length = random.below(32) as usize;
        random.bytes(length)
    });
    let sample = Sample::new(number, [&names[0], &names[1]], |f| random.within(f.width_least(), f.width_greatest()));
    sample.bytes()
}

/// Random bytes of any length.
fn random_bytes(random: &mut Random) -> Vec<u8> {
    let length = random.below(300) as usize;
    random.bytes(length)
}

/// A sound message under another number.
fn unknown_number(random: &mut Random) -> Vec<u8> {
    let mut bytes = sound(random);
    let near = [1020, 1028, 0, 4_095, 1021 - 512, 1021 + 1024, 253, 255];
    let number = match random.below(2) {
        0 => pick(random, &near),
        _ => random.below(4_096),
    };
    bytes[0] = (number >> 4) as u8;
    bytes[1] = (number << 4) as u8 | (bytes[1] & 15);
    bytes
}

/// No byte or one.
fn short(random: &mut Random) -> Vec<u8> {
    let length = random.below(2) as usize;
    random.bytes(length)
}
