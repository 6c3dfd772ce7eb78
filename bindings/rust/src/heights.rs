//! Making a height grid: a message 1023 from sixteen wanted heights.

use crate::rows::{length_of, written, Buffers};
use crate::{ffi, Refusal, MOST_BYTES, NODES};

/// Gives the message 1023 of sixteen wanted heights.
///
/// Heights are in whole millimetres, node 1 first (rows from the north, each from west to east). The rest is a row of a
/// 1023, whose height fields (DF198, DF201) are not looked at. The mean (DF198) is the smallest from -16,383 to 16,383 for
/// which every height less the mean lies within ±255 mm, and the nodes (DF201) are these differences: at each node the
/// message's shift is the wanted height exactly.
///
/// Refusals: RANGE for a wrong count of fields, OFF, METHOD, ORIGIN, SPACING, NOMEAN, RANGE for all other fields and for a
/// number other than 1023.
///
/// ```
/// use tarnoklej::{example, shifts_at, write_heights, Message, Refusal, NODES};
///
/// // Heights from 46.921 m at node 1 to 46.936 m at node 16, in the place of grid K.
/// let row = example::grid_k_fields().row();
/// let mut wanted: [i64; NODES] = std::array::from_fn(|i| 46_921 + i as i64);
/// let message = write_heights(&row, &wanted)?;
/// let fields = Message::read(&message)?;
/// assert_eq!(fields.field(198).and_then(|mean| mean.quantity()).expect("a mean").to_string(), "46.69 m");
/// assert_eq!(fields.value_at_node(201, 1), Some(231));
/// assert_eq!(shifts_at(&message, example::NODE_16).height?.count, 469_360);
///
/// // A message holds heights that are at most 510 mm apart.
/// wanted[15] = wanted[0] + 511;
/// assert_eq!(write_heights(&row, &wanted), Err(Refusal::NoMean));
/// # Ok::<(), Refusal>(())
/// ```
pub fn write_heights(fields: &[Option<i64>], wanted: &[i64; NODES]) -> Result<Vec<u8>, Refusal> {
    let mut out = vec![0; MOST_BYTES];
    let length = write_heights_into(fields, wanted, &mut out);
    written(out, length)
}

/// Writes the message 1023 of sixteen wanted heights into the first bytes of a buffer, keeps the rest, and gives its length.
///
/// Refusals: those of [`write_heights`] in their order, then ROOM; with a refusal the buffer stays as it was.
pub fn write_heights_into(fields: &[Option<i64>], wanted: &[i64; NODES], out: &mut [u8]) -> Result<usize, Refusal> {
    let row = Buffers::of(fields);
    length_of(ffi::write_heights(row.values(), row.present(), wanted, out))
}
