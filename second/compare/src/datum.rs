//! Compares the datum step: the refusals of both must be equal, and each coordinate must lie within one unit of the exact target.

use crate::messages::{of_kind, pick};
use crate::Compared;
use second::damage::Damage;
use second::datum::{decimal, targets, within_one_unit, FARTHEST};
use second::datumsamples::{any_parameters, any_position, PARAMETER_FIELDS};
use second::hex::hex;
use second::random::Random;
use second::refusal::Refusal;
use second::samples::Sample;
use second::whole::Whole;
use tarnoklej::ffi;

/// How many kinds of messages there are.
const KINDS: u64 = 16;

/// A message of one of the kinds: one that is answered, one with a reason to be refused, a damaged one, or any message.
fn any_message(random: &mut Random, turn: u64) -> Vec<u8> {
    let any = Sample::any(random, 1021);
    let answered = any_parameters(random).in_sample(&any);
    match turn % KINDS {
        0..=6 => answered.bytes(),
        7 | 8 => answered.with(pick(random, &PARAMETER_FIELDS), None).bytes(),
        9 | 10 => answered.with(150, random.within(1, 15)).bytes(),
        11 => any.bytes(),
        12 | 13 => {
            let bytes = answered.bytes();
            Damage::any(random, bytes.len()).done_to(&bytes)
        }
        _ => of_kind(random, turn / KINDS),
    }
}

/// A coordinate beyond the limits or at them.
fn far(random: &mut Random) -> i64 {
    let sign = 1 - 2 * random.within(0, 1);
    match random.below(6) {
        0 => i64::MIN,
        1 => i64::MAX,
        2 => random.bits() as i64,
        _ => sign * (FARTHEST + random.within(0, 1)),
    }
}

/// A position, one in eight with a coordinate beyond the limits or at them.
fn position(random: &mut Random) -> [i64; 3] {
    let mut position = any_position(random);
    if random.below(8) == 0 {
        position[random.below(3) as usize] = far(random);
    }
    position
}

/// Whether an answer is one that the exact targets or the refusal allow.
fn allowed(library: &ffi::Position, second: &Result<[Whole; 3], Refusal>) -> bool {
    let coordinates = [library.x, library.y, library.z];
    match second {
        Ok(targets) => library.refusal == 0 && coordinates.iter().zip(targets).all(|(&c, t)| within_one_unit(c, t)),
        Err(refusal) => library.refusal == refusal.number() && coordinates == [0; 3],
    }
}

/// Compares the datum step of one message at one position.
pub fn compare_step(random: &mut Random, turn: u64) -> Compared {
    let bytes = any_message(random, turn).into_boxed_slice();
    let [x, y, z] = position(random);
    let second = targets(&bytes, [x, y, z]);
    // SAFETY: the pointer and the length are those of a slice.
    let library = unsafe { ffi::tarnoklej_datum_step(bytes.as_ptr(), bytes.len(), x, y, z) };
    if allowed(&library, &second) {
        return Ok(vec![library.refusal]);
    }
    let second = second.map(|targets| targets.each_ref().map(decimal));
    Err(format!("input {} at {x} {y} {z}\nlibrary {library:?}\nsecond  {second:?}", hex(&bytes)))
}
