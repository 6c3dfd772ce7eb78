//! A field's value as it is shown: exact decimals, sums, and what a number means.

use crate::decimal::{decimal_text, push_decimal, ten_to};
use crate::tables::Field;

/// The words of a field without a value.
pub const NOT_AVAILABLE: &str = "not available";

/// Appends raw times the resolution.
pub fn push_value(text: &mut String, field: &Field, raw: i64) {
    push_decimal(text, units(field, raw), field.resolution.decimals);
}

/// Raw times the resolution, in units of the resolution's last decimal.
fn units(field: &Field, raw: i64) -> i128 {
    i128::from(raw) * field.resolution.units
}

/// The constant and the sum of constant and value, unless the number means undefined.
pub fn sum(field: &Field, raw: i64) -> Option<(i64, String)> {
    let base = field.base.filter(|_| field.code(raw).is_none())?;
    let decimals = field.resolution.decimals;
    Some((base, decimal_text(i128::from(base) * ten_to(decimals) + units(field, raw), decimals)))
}

/// What a number means: the words of a code, a date, messages, or degrees, minutes and seconds.
pub fn meaning(field: &Field, raw: i64) -> Option<String> {
    if let Some(words) = field.code(raw) {
        Some(words.to_string())
    } else if field.df == "DF051" {
        Some(date(raw))
    } else if !field.bits.is_empty() {
        Some(bits(field, raw))
    } else {
        field.is_angle().then(|| sexagesimal(units(field, raw), field.resolution.decimals))
    }
}

/// The date of a modified Julian day, by the civil calendar counted in eras of 400 years from the 1st of March.
fn date(modified_julian_day: i64) -> String {
    let day = modified_julian_day + 678_881; // from the 1st of March of year 0
    let (era, of_era) = (day.div_euclid(146_097), day.rem_euclid(146_097));
    let year_of_era = (of_era - of_era / 1_460 + of_era / 36_524 - of_era / 146_096) / 365;
    let of_year = of_era - (365 * year_of_era + year_of_era / 4 - year_of_era / 100);
    let month_from_march = (5 * of_year + 2) / 153;
    let day_of_month = of_year - (153 * month_from_march + 2) / 5 + 1;
    let month = if month_from_march < 10 { month_from_march + 3 } else { month_from_march - 9 };
    let year = 400 * era + year_of_era + i64::from(month <= 2);
    format!("{year:04}-{month:02}-{day_of_month:02}")
}

/// The set bits of a bit field, the first bit sent being Bit(1): message numbers as such, others by their own names.
fn bits(field: &Field, raw: i64) -> String {
    let named = |(index, words): (usize, &String)| {
        let is_number = words.bytes().all(|sign| sign.is_ascii_digit());
        let set = raw >> (field.width - 1 - index) & 1 == 1;
        set.then(|| if is_number { words.clone() } else { format!("Bit({})", index + 1) })
    };
    let set: Vec<String> = field.bits.iter().enumerate().filter_map(named).collect();
    if set.is_empty() {
        "none".to_string()
    } else {
        set.join(", ")
    }
}

/// Degrees, minutes and seconds of units of an arc second's decimals.
pub fn sexagesimal(units: i128, decimals: usize) -> String {
    let minute = 60 * ten_to(decimals);
    let (size, sign) = (units.abs(), if units < 0 { "-" } else { "" });
    let (minutes, seconds) = (size / minute, decimal_text(size % minute, decimals));
    let tens = if size % minute < minute / 6 { "0" } else { "" };
    format!("{sign}{}°{:02}′{tens}{seconds}″", minutes / 60, minutes % 60)
}

/// The text of a name in ISO 8859-1 between quotation marks; signs that are not printed are escaped by the form given.
pub fn quoted(bytes: impl Iterator<Item = u8>, escape: fn(u8) -> String) -> String {
    let mut text = String::from("\"");
    for byte in bytes {
        match byte {
            b'"' | b'\\' => text.extend(['\\', char::from(byte)]),
            0..=0x1f | 0x7f..=0x9f => text += &escape(byte),
            printed => text.push(char::from(printed)),
        }
    }
    text.push('"');
    text
}

#[cfg(test)]
mod tests {
    use super::*;

    #[test]
    fn days_are_dates() {
        for (day, text) in [(0, "1858-11-17"), (40_587, "1970-01-01"), (51_603, "2000-02-29"), (51_604, "2000-03-01")] {
            assert_eq!(date(day), text);
        }
        assert_eq!(date(65_535), "2038-04-22");
    }

    #[test]
    fn angles_have_degrees() {
        assert_eq!(sexagesimal(-2_377, 1), "-0°03′57.7″");
        assert_eq!(sexagesimal(39_605, 0), "11°00′05″");
    }
}
