//! The second program's own checks of fields without a value, of rows as two buffers, and of records (document 02, A5).

use crate::fields::{by_df, FIELDS};
use crate::layouts::NUMBERS;
use crate::message::{read, write_row, Row, KINDS};
use crate::random::Random;
use crate::record::{made_of, read_record, record_of, text, write_record, zeros, GRID_KIND};
use crate::refusal::{number_of, Refusal};
use crate::samples::Sample;
use crate::selfcheck::Group;

/// All groups of checks of fields without a value.
pub fn groups() -> Vec<Group> {
    vec![signed_fields(), nones(), no_rows(), not_available_latitude(), records()]
}

/// The data fields that source document 000 types as intN.
const SIGNED: [u16; 39] = [
    152, 153, 156, 157, 158, 159, 160, 161, 162, 163, 164, 165, 171, 172, 175, 176, 177, 178, 179, 181, 183, 184, 186,
    189, 192, 193, 196, 197, 198, 199, 200, 201, 202, 206, 207, 208, 209, 210, 211,
];

/// The fields that can have no value, and the number that is sent for it.
fn signed_fields() -> Group {
    let mut group = Group::new("fields that can have no value");
    for field in FIELDS {
        group.equal(&format!("DF{}", field.df), field.can_be(None), SIGNED.contains(&field.df));
        group.equal("pattern", field.sent(None).is_some(), field.signed());
        let Some(pattern) = field.sent(None) else { continue };
        group.equal("half of the width's numbers", pattern, -(1i64 << field.width) / 2);
        group.equal("read", [pattern, pattern + 1].map(|number| field.reading(number)), [None, Some(pattern + 1)]);
        group.equal("taken", field.takes(pattern), false);
    }
    group
}

/// Every place of every message without a value: read as none and written back, or refused where it is unsigned.
fn nones() -> Group {
    let mut group = Group::new("fields without a value, read and written");
    for number in NUMBERS {
        let usual = Sample::usual(number);
        for place in 0..usual.dfs.len() {
            let field = by_df(usual.dfs[place]);
            let without = usual.with_at(place, None);
            if !field.signed() {
                group.equal("unsigned", write_row(&without.row(), 127), Err(Refusal::Range));
                continue;
            }
            let pattern = -(1i64 << (field.width - 1));
            let present = usual.with_at(place, pattern);
            group.equal("present pattern", write_row(&present.row(), 127), Err(Refusal::Range));
            let bytes = present.bytes();
            let message = read(&bytes).expect("a none is always accepted");
            group.equal("read", message.all_readings(), without.readings.clone());
            group.equal("value beside it", (message.row().values[place], message.row().present[place]), (0, 0));
            group.equal("written", write_row(&message.row(), 127), Ok(bytes.clone()));
            group.equal("record", write_record(&record_of(&message), 127), Ok(bytes));
        }
    }
    group
}

/// Buffers that are no row: a none with a value, a presence byte other than 0 and 1, and different counts.
fn no_rows() -> Group {
    let mut group = Group::new("buffers that are no row");
    for number in NUMBERS {
        let row = Sample::usual(number).row();
        for place in 0..row.values.len() {
            let mut changed = |what: &str, value: i64, present: u8| {
                let mut other = row.clone();
                (other.values[place], other.present[place]) = (value, present);
                group.equal(what, write_row(&other, 127), Err(Refusal::Range));
            };
            [1, -1, i64::MIN, i64::MAX].into_iter().for_each(|value| changed("none with a value", value, 0));
            (2..=255).for_each(|present| changed("presence byte", row.values[place], present));
        }
        for count in (0..=row.values.len() + 1).filter(|&count| count != row.values.len()) {
            let mut other = row.clone();
            other.present.resize(count, 1);
            group.equal("presence bytes", write_row(&other, 127), Err(Refusal::Range));
            let mut other = row.clone();
            other.values.resize(count, 0);
            group.equal("values", write_row(&other, 127), Err(Refusal::Range));
        }
    }
    group
}

/// Document 01's cases of DF152 in rows and bytes: -262,144 is none, and never a value.
fn not_available_latitude() -> Group {
    let mut group = Group::new("DF152 without a value");
    let p12 = Sample::zeros(1021);
    let bytes = p12.with(152, -262_144).bytes();
    let message = read(&bytes).expect("accepted");
    group.equal("read", message.reading(152), None);
    group.equal("written", write_row(&p12.with(152, None).row(), 52), Ok(bytes));
    group.equal("present", write_row(&p12.with(152, -262_144).row(), 52), Err(Refusal::Range));
    for (value, reading) in [(162_000, Some(162_000)), (-1, Some(-1)), (0, Some(0))] {
        let message = read(&p12.with(152, value).bytes()).expect("accepted");
        group.equal("value", message.reading(152), reading);
    }
    group
}

/// Records that are refused, printed, and made from rows without a test.
fn records() -> Group {
    let mut group = Group::new("records refused, printed and made from rows");
    for kind in 0..KINDS.len() {
        let (refusal, record) = read_record(&[], kind);
        group.equal("refusal", refusal, Err(Refusal::Short));
        group.equal("refused record", record.clone(), zeros(kind));
        group.check(record.fields.iter().all(|f| f.1 == Some(0)), || format!("{record:?} is not all 0"));
        group.equal("written", write_record(&record, 127), Err(Refusal::Range));
    }
    let lambert = Sample::zeros(1026).with(177, None).with(181, -5);
    let printed = "002=1026 147=0 170=0 176=0 177=none 178=0 179=0 180=0 181=-5".to_string();
    group.equal("printed", text(&read_record(&lambert.bytes(), 4).1), printed);
    let named = text(&made_of(0, &Sample::new(1021, [b"AZ", b""], |_| 0).row()));
    group.check(named.starts_with("002=1021 143=2 144=415a 145=0 146=- 147=0 "), || named.clone());
    let mut random = Random::new(3);
    for number in NUMBERS.repeat(100) {
        let sample = Sample::any(&mut random, number);
        let message = read(&sample.bytes()).expect("a sound message");
        let record = record_of(&message);
        group.equal("made of the row", made_of(record.kind, &sample.row()), record);
    }
    let plane = Sample::usual(1024).with(203, None);
    let easting = made_of(GRID_KIND, &plane.row());
    group.equal("easting kept as none", write_record(&easting, 127), Err(Refusal::Range));
    // A 1021 with 39 characters has as many fields as a 1023.
    let like_a_grid = Row::of(&Sample::new(1021, [&[0; 8], &[0; 31]], |_| 0).with(2, 1023).readings);
    group.equal("as a row", number_of(&write_row(&like_a_grid, 127)), 0);
    group.equal("as a record", write_record(&made_of(0, &like_a_grid), 127), Err(Refusal::Range));
    group
}
