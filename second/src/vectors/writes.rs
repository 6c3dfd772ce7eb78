//! Cases of writing a row: sound rows, rooms, values outside their field, and buffers that are no row of a message.

use super::reads::{label, plain_places};
use super::{Call, Vector};
use crate::fields::by_df;
use crate::layouts::NUMBERS;
use crate::message::Row;
use crate::random::Random;
use crate::samples::{end_by_turns, not_taken, taken, Sample};

/// All cases of writing.
pub fn cases() -> Vec<Vector> {
    let mut cases = Vec::new();
    cases.extend(no_message());
    for number in NUMBERS {
        cases.extend(rooms(number));
        cases.extend(taken_readings(number));
        cases.extend(refused_values(number));
        cases.extend(wrong_counts(number));
        cases.extend(different_counts(number));
        cases.extend(no_places(number));
        cases.extend(extremes(number));
        cases.extend(random_rows(number));
        cases.extend(range_before_room(number));
    }
    for number in [1021, 1022] {
        cases.extend(names(number));
    }
    cases
}

/// A case of writing a row into a buffer.
fn case(name: String, row: &Row, room: usize) -> Vector {
    Vector { name, call: Call::Write { row: row.clone(), room } }
}

/// A row of values that are all present.
fn present(values: &[i64]) -> Row {
    Row { values: values.to_vec(), present: vec![1; values.len()] }
}

/// A number as a word for a name.
fn word(number: i64) -> String {
    match number {
        i64::MIN => "least".to_string(),
        i64::MAX => "greatest".to_string(),
        _ => number.to_string().replace('-', "minus-"),
    }
}

/// Rows that begin no message.
fn no_message() -> Vec<Vector> {
    let empty = present(&[]);
    let mut cases = vec![case("write-empty".into(), &empty, 0), case("write-empty-room".into(), &empty, 8)];
    for number in [0, 1, -1, -1025, 1020, 1028, 4095, 4096, 4096 + 1025, 65536 + 1025, i64::MIN, i64::MAX] {
        let row = Sample::zeros(1025).with_at(0, number).row();
        cases.push(case(format!("write-number-{}", word(number)), &row, 33));
        cases.push(case(format!("write-number-{}-alone", word(number)), &present(&[number]), 33));
    }
    cases.push(case("write-present-alone".into(), &Row { values: vec![], present: vec![1] }, 33));
    cases.push(case("write-none-alone".into(), &Row { values: vec![0], present: vec![0] }, 33));
    cases.push(case("write-most-values".into(), &Row { values: vec![1; 100], present: vec![] }, 33));
    cases.push(case("write-most-present".into(), &Row { values: vec![1; 100], present: vec![1; 140] }, 33));
    cases
}

/// One row at every kind of room.
fn rooms(number: u16) -> Vec<Vector> {
    let sample = Sample::usual(number);
    let length = sample.bytes().len();
    let rooms = [0, 1, 2, length / 2, length - 2, length - 1, length, length + 1, length + 2, length + 17, 160];
    rooms.iter().map(|&room| case(format!("write-{number}-room-{room}"), &sample.row(), room)).collect()
}

/// Every field at readings it can have, at exact room, and by turns one byte short or with room to spare.
fn taken_readings(number: u16) -> Vec<Vector> {
    let usual = Sample::usual(number);
    let length = usual.bytes().len();
    let mut cases = Vec::new();
    for place in plain_places(&usual) {
        for (i, (word, reading)) in taken(by_df(usual.dfs[place])).into_iter().enumerate() {
            let name = format!("write-{}-{word}", label(&usual, place));
            let row = &usual.with_at(place, reading).row();
            let node = usual.dfs.iter().filter(|&&df| df == usual.dfs[place]).count() > 1;
            match i {
                _ if node => {}
                0 => cases.push(case(format!("{name}-short"), row, length - 1)),
                1 => cases.push(case(format!("{name}-spare"), row, length + 3)),
                _ => {}
            }
            cases.push(case(name, row, length));
        }
    }
    cases
}

/// Every field at values outside its range or its width, which would fit if cut to the width, and at its pattern.
fn refused_values(number: u16) -> Vec<Vector> {
    let usual = Sample::usual(number);
    let length = usual.bytes().len();
    let mut cases = Vec::new();
    for place in plain_places(&usual) {
        for (word, value) in not_taken(by_df(usual.dfs[place])) {
            let name = format!("write-{}-{word}", label(&usual, place));
            cases.push(case(name, &usual.with_at(place, value).row(), length));
        }
    }
    cases
}

/// Rows of one field fewer, one more, the first field alone, and without it.
fn wrong_counts(number: u16) -> Vec<Vector> {
    let values = Sample::usual(number).row().values;
    let more = [&values[..], &[0]].concat();
    let counted = |word: &str, values: &[i64]| case(format!("write-{number}-{word}"), &present(values), 160);
    vec![
        counted("one-fewer", &values[..values.len() - 1]),
        counted("two-fewer", &values[..values.len() - 2]),
        counted("half", &values[..values.len() / 2]),
        counted("first-alone", &values[..1]),
        counted("two-fields", &values[..2]),
        counted("one-more", &more),
        counted("two-more", &[&more[..], &[0]].concat()),
        counted("without-first", &values[1..]),
    ]
}

/// Buffers of different counts, of which one has the message's count of fields or both have another.
fn different_counts(number: u16) -> Vec<Vector> {
    let values = Sample::usual(number).row().values;
    let count = values.len();
    let mut cases = Vec::new();
    for presents in [0, 1, count / 2, count - 1, count + 1, count + 2, 140] {
        let row = Row { values: values.clone(), present: vec![1; presents] };
        cases.push(case(format!("write-{number}-present-bytes-{presents}"), &row, 160));
        cases.push(case(format!("write-{number}-present-bytes-{presents}-short"), &row, 0));
    }
    for (word, more) in [("value", [1, 0]), ("present", [0, 1])] {
        let extended =
            |by: [usize; 2]| Row { values: [&values[..], &vec![0; by[0]]].concat(), present: vec![1; count + by[1]] };
        cases.push(case(format!("write-{number}-{word}-more"), &extended(more), 160));
        cases.push(case(format!("write-{number}-{word}-more-than-one-more"), &extended(more.map(|n| n + 1)), 160));
    }
    let fewer = Row { values: values[..count - 1].to_vec(), present: vec![1; count] };
    cases.push(case(format!("write-{number}-value-fewer"), &fewer, 160));
    cases
}

/// Every place with two numbers that it cannot have: a none with a value, a none in an unsigned field, a presence byte
/// other than 0 and 1.
fn no_places(number: u16) -> Vec<Vector> {
    let usual = Sample::usual(number);
    let length = usual.bytes().len();
    let mut random = Random::new(9_000 + number as u64);
    let mut cases = Vec::new();
    for place in 0..usual.dfs.len() {
        let unsigned = !by_df(usual.dfs[place]).signed();
        let mut changed = |word: &str, value: i64, present: u8| {
            let mut row = usual.row();
            (row.values[place], row.present[place]) = (value, present);
            cases.push(case(format!("write-{number}-place-{place}-{word}"), &row, length));
        };
        let value = usual.readings[place].expect("usual fields have values");
        if unsigned {
            changed("none", 0, 0);
        }
        let any_not_zero = [1, -1, value, i64::MIN, i64::MAX][place % 5];
        changed("none-with-value", if any_not_zero == 0 { 1 } else { any_not_zero }, 0);
        changed("present-2", value, 2);
        changed("present-above-1", value, random.within(2, 255) as u8);
        if place % 4 == 0 {
            changed("present-255", 0, 255);
        }
    }
    cases
}

/// The ends of 64-bit numbers at every place, by turns.
fn extremes(number: u16) -> Vec<Vector> {
    let usual = Sample::usual(number);
    let mut cases = Vec::new();
    for place in 1..usual.readings.len() {
        let (word, value) = end_by_turns(place);
        cases.push(case(format!("write-{number}-place-{place}-{word}"), &usual.with_at(place, value).row(), 12));
    }
    cases
}

/// Random sound rows at exact room and at any room, and all that can be none being none.
fn random_rows(number: u16) -> Vec<Vector> {
    let mut random = Random::new(7_000 + number as u64);
    let mut cases = Vec::new();
    for i in 0..12 {
        let sample = Sample::any(&mut random, number);
        cases.push(case(format!("write-{number}-random-{i}"), &sample.row(), sample.bytes().len()));
        let room = random.below(161) as usize;
        cases.push(case(format!("write-{number}-random-any-room-{i}"), &sample.row(), room));
    }
    let none = Sample::new(number, [b"n", b"one"], |field| (!field.signed()).then(|| field.greatest()));
    cases.push(case(format!("write-{number}-all-not-available"), &none.row(), none.bytes().len()));
    cases
}

/// Rows that are out of range and too long for the room.
fn range_before_room(number: u16) -> Vec<Vector> {
    let usual = Sample::usual(number);
    let length = usual.bytes().len();
    let bad = usual.with(147, 256).row();
    let fewer = Row::of(&usual.readings[..usual.readings.len() - 1]);
    let mut none_with_value = usual.row();
    none_with_value.values[1] = 1;
    none_with_value.present[1] = 0;
    vec![
        case(format!("write-{number}-order-range-room"), &bad, length - 1),
        case(format!("write-{number}-order-range-no-room"), &bad, 0),
        case(format!("write-{number}-order-count-no-room"), &fewer, 0),
        case(format!("write-{number}-order-none-no-room"), &none_with_value, length - 1),
    ]
}

/// Names of several lengths, characters outside a byte, and counters that do not match.
fn names(number: u16) -> Vec<Vector> {
    let mut random = Random::new(8_000 + number as u64);
    let mut cases = Vec::new();
    for source in [0, 1, 30, 31] {
        for target in [0, 1, 30, 31] {
            let names = [random.bytes(source), random.bytes(target)];
            let sample = Sample::new(number, [&names[0], &names[1]], |f| random.within(0, f.greatest().min(99_999)));
            let length = sample.bytes().len();
            let name = format!("write-{number}-names-{source}-{target}");
            cases.push(case(format!("{name}-short"), &sample.row(), length - 1));
            cases.push(case(name, &sample.row(), length));
        }
    }
    let longest = Sample::new(number, [&[255; 31], &[254; 31]], |field| field.least());
    cases.push(case(format!("write-{number}-longest"), &longest.row(), longest.bytes().len()));
    cases.extend(characters(number));
    cases.extend(counters(number));
    cases
}

/// The first and the last character of both names at and beyond the ends of a byte.
fn characters(number: u16) -> Vec<Vector> {
    let sample = Sample::new(number, [b"ab", b"cd"], |_| 0);
    let length = sample.bytes().len();
    let mut cases = Vec::new();
    for place in [2, 3, 5, 6] {
        for (word, value) in [("0", 0), ("255", 255), ("256", 256), ("minus-1", -1), ("minus-256", -256)] {
            let row = sample.with_at(place, value).row();
            cases.push(case(format!("write-{number}-character-{place}-{word}"), &row, length));
        }
    }
    cases
}

/// Counters from minus one to 33 and at the ends of 64 bits, in rows whose characters stay the same.
fn counters(number: u16) -> Vec<Vector> {
    let sample = Sample::new(number, [b"abc", b"defg"], |_| 0);
    let mut cases = Vec::new();
    for (df, which) in [(143, "source"), (145, "target")] {
        for value in (-1..=33).chain([255, 256 + 3, 32 + 3, 32 + 4, i64::MIN, i64::MAX]) {
            let row = sample.with(df, value).row();
            cases.push(case(format!("write-{number}-{which}-counter-{}", word(value)), &row, 80));
        }
    }
    cases
}
