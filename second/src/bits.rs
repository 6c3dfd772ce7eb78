//! Bits of a row of bytes, the most significant bit of the first byte first.

/// Reads fields one after another.
pub struct BitReader<'a> {
    bytes: &'a [u8],
    at: usize,
}

impl<'a> BitReader<'a> {
    /// Starts at the first bit.
    pub fn new(bytes: &'a [u8]) -> Self {
        BitReader { bytes, at: 0 }
    }

    /// The number of bits read so far.
    pub fn position(&self) -> usize {
        self.at
    }

    /// Passes over bits without looking at them, which may lead beyond the end.
    pub fn skip(&mut self, bits: usize) {
        self.at += bits;
    }

    /// The next bit, if there is one.
    fn bit(&mut self) -> Option<i64> {
        let byte = *self.bytes.get(self.at / 8)?;
        let bit = byte >> (7 - self.at % 8) & 1;
        self.at += 1;
        Some(bit as i64)
    }

    /// The next bits as an unsigned number, if all of them are there.
    pub fn unsigned(&mut self, width: u32) -> Option<i64> {
        let mut value = 0;
        for _ in 0..width {
            value = value * 2 + self.bit()?;
        }
        Some(value)
    }

    /// The next bits as a two's complement number, if all of them are there.
    pub fn signed(&mut self, width: u32) -> Option<i64> {
        let value = self.unsigned(width)?;
        let half = 1i64 << (width - 1);
        Some(if value >= half { value - 2 * half } else { value })
    }

    /// Whether a bit that is not yet read is set.
    pub fn rest_is_set(&mut self) -> bool {
        while let Some(bit) = self.bit() {
            if bit == 1 {
                return true;
            }
        }
        false
    }
}

/// Writes fields one after another, and fills the last byte with zeros.
#[derive(Default)]
pub struct BitWriter {
    bytes: Vec<u8>,
    at: usize,
}

impl BitWriter {
    /// Appends one bit.
    fn bit(&mut self, bit: bool) {
        if self.at.is_multiple_of(8) {
            self.bytes.push(0);
        }
        if bit {
            *self.bytes.last_mut().expect("a byte was pushed") |= 0x80 >> (self.at % 8);
        }
        self.at += 1;
    }

    /// Appends the low bits of a number, two's complement where it is negative.
    pub fn number(&mut self, value: i64, width: u32) {
        for place in (0..width).rev() {
            self.bit(value >> place & 1 == 1);
        }
    }

    /// The bytes written.
    pub fn into_bytes(self) -> Vec<u8> {
        self.bytes
    }
}
