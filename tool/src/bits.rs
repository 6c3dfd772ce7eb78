//! The bits of a message that the library has refused, the most significant bit of the first byte being bit 0.

/// A bit, or nothing behind the end.
pub fn bit(bytes: &[u8], at: usize) -> Option<bool> {
    bytes.get(at / 8).map(|byte| byte & (0x80 >> (at % 8)) != 0)
}

/// Some bits as an unsigned number, where all of them are there.
pub fn unsigned(bytes: &[u8], at: usize, width: usize) -> Option<i64> {
    (at..at + width).try_fold(0, |number, place| Some(2 * number + i64::from(bit(bytes, place)?)))
}

/// Some bits as a two's complement number, where all of them are there.
pub fn signed(bytes: &[u8], at: usize, width: usize) -> Option<i64> {
    let number = unsigned(bytes, at, width)?;
    Some(if number >> (width - 1) == 1 { number - (1 << width) } else { number })
}

/// The message number, the first 12 bits.
pub fn number(message: &[u8]) -> Option<u16> {
    unsigned(message, 0, 12).map(|number| number as u16)
}
