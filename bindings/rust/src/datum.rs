//! The datum step: from a position in the source datum of a message 1021 to the one in its target datum.

use crate::{ffi, Geocentric, Refusal};

/// The greatest coordinate that a datum step takes, without sign, in units of 0.1 mm.
pub const FARTHEST: i64 = 100_000_000_000;

/// Gives the position in the target datum of a message 1021 by its linear seven-parameter step, DF150 being 0.
///
/// The signs are those of the standard's formula 3.5-1
/// (coordinate frame rotation, EPSG method 9607), where the scale multiplies the rotated position:
///
/// ```text
/// x' = M (      x + RZ y - RY z) + dX
/// y' = M (-RZ x +      y + RX z) + dY
/// z' = M ( RY x - RX y +      z) + dZ
/// ```
///
/// RX, RY, RZ are DF159 to DF161 in steps of 96,962,736,221,907 over 10^24 radian, and M is 1 and DF162 in steps of
/// 1 over 10^11. Each coordinate answered lies within one unit of the exact one; which whole number within that unit is
/// answered is left free.
///
/// Refusals: SHORT, NUMBER, LENGTH, FILL, RANGE, KIND, POSITION beyond ±10^11, METHOD, ABSENT.
///
/// ```
/// use tarnoklej::{datum_step, Geocentric, Message, Refusal};
///
/// // A 1021 with empty names: 598.1 m, 73.7 m and 418.2 m, 0.202, 0.045 and -2.455 arc seconds, and 6.7 PPM.
/// let mut helmert = Message::new(1021)?;
/// helmert.set(156, 598_100)?.set(157, 73_700)?.set(158, 418_200)?;
/// helmert.set(159, 10_100)?.set(160, 2_250)?.set(161, -122_750)?.set(162, 670_000)?;
///
/// let source = Geocentric::new(41_498_712_345, 7_985_412_345, 47_893_256_789);
/// let target = datum_step(&helmert.write()?, source)?;
/// // The exact position is (41504865893.196.., 7986743678.857.., 47897760907.140..).
/// assert!((41_504_865_893..=41_504_865_894).contains(&target.x));
/// assert!((7_986_743_678..=7_986_743_679).contains(&target.y));
/// assert!((47_897_760_907..=47_897_760_908).contains(&target.z));
///
/// let far = Geocentric { x: 100_000_000_001, ..source };
/// assert_eq!(datum_step(&helmert.write()?, far), Err(Refusal::Position));
/// // Without a scale correction (DF162) there is no step.
/// helmert.set(162, None)?;
/// assert_eq!(datum_step(&helmert.write()?, source), Err(Refusal::Absent));
/// # Ok::<(), Refusal>(())
/// ```
pub fn datum_step(message: &[u8], position: Geocentric) -> Result<Geocentric, Refusal> {
    let target = ffi::datum_step(message, position.x, position.y, position.z);
    Refusal::unless_done(target.refusal)?;
    Ok(Geocentric { x: target.x, y: target.y, z: target.z })
}
