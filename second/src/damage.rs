//! What a bad modem does to bytes.

use crate::random::Random;

/// What a bad modem does to a message or a frame.
#[derive(Clone, Copy)]
pub enum Damage {
    /// Only the first bytes arrive.
    Cut(usize),
    /// One bit arrives wrong.
    Bit(usize),
    /// Some bytes in a row arrive wrong.
    Burst(usize, usize),
    /// One byte arrives twice.
    Doubled(usize),
    /// One byte is lost.
    Lost(usize),
    /// The last bit arrives set, which is a message's fill bit.
    Fill,
    /// All bytes from a place on arrive as ones.
    Ones(usize),
}

impl Damage {
    /// Any damage to a number of bytes, of which there is at least one.
    pub fn any(random: &mut Random, length: usize) -> Damage {
        let at = random.below(length as u64) as usize;
        match random.below(6) {
            0 => Damage::Cut(at),
            1 => Damage::Burst(at, 1 + random.below(6).min((length - at - 1) as u64) as usize),
            2 => Damage::Doubled(at),
            3 => Damage::Lost(at),
            4 => Damage::Ones(at),
            _ => Damage::Bit(8 * at + random.below(8) as usize),
        }
    }

    /// The word for the damage in a file's name.
    pub fn word(&self) -> &'static str {
        match self {
            Damage::Cut(_) => "cut",
            Damage::Bit(_) => "bit",
            Damage::Burst(..) => "burst",
            Damage::Doubled(_) => "doubled",
            Damage::Lost(_) => "lost",
            Damage::Fill => "fill",
            Damage::Ones(_) => "ones",
        }
    }

    /// The bytes that arrive.
    pub fn done_to(&self, sound: &[u8]) -> Vec<u8> {
        let mut bytes = sound.to_vec();
        match *self {
            Damage::Cut(length) => bytes.truncate(length),
            Damage::Bit(bit) => bytes[bit / 8] ^= 0x80 >> (bit % 8),
            Damage::Burst(at, length) => bytes[at..at + length].iter_mut().for_each(|b| *b ^= 0x5a),
            Damage::Doubled(at) => bytes.insert(at, sound[at]),
            Damage::Lost(at) => {
                bytes.remove(at);
            }
            Damage::Fill => *bytes.last_mut().expect("a byte") |= 1,
            Damage::Ones(at) => bytes[at..].fill(0xff),
        }
        bytes
    }
}
