//! Cases of records: printed field by field, made from rows without a test and written, and with other names.

use super::reads::{label, narrow_field, plain_places};
use super::{buffer_after, row_words, Case};
use crate::fields::{by_df, Reading};
use crate::hex::hex;
use crate::layouts::NUMBERS;
use crate::message::{Row, KINDS};
use crate::random::Random;
use crate::record::{made_of, read_record, text, write_record, NAME_ROOM};
use crate::refusal::number_of;
use crate::samples::{end_by_turns, not_taken, Sample};

/// All cases of records.
pub fn cases() -> Vec<Case> {
    let mut cases = refused_records();
    for number in NUMBERS {
        cases.extend(printed_fields(number));
        cases.extend(printed_rows(number));
        cases.extend(made_and_written(number));
        cases.extend(values_outside(number));
        cases.extend(nones_made(number));
        cases.extend(numbers_of_another_kind(number));
    }
    cases.extend(as_long_as_a_grid());
    for number in [1021, 1022] {
        cases.extend(longest_names(number));
        cases.extend(other_lengths(number));
        cases.extend(other_characters(number));
        cases.extend(refused_before_renamed(number));
    }
    cases
}

/// The kind of a message number's records, counted from 1.
fn kind_of(number: u16) -> usize {
    KINDS.iter().position(|of| of.contains(&number)).expect("a kind of every number") + 1
}

/// A case of printing the record that the reader of a kind gives.
fn print_case(name: String, kind: usize, bytes: &[u8]) -> Case {
    let (refusal, record) = read_record(bytes, kind - 1);
    Case {
        name,
        call: format!("record {kind} {}", hex(bytes)),
        answer: format!("{} : {}", number_of(&refusal), text(&record)),
    }
}

/// A case of a record that is made from a row and written.
fn remake_case(name: String, kind: usize, row: &Row, room: usize) -> Case {
    Case {
        name,
        call: format!("remake {kind} {room} {}", row_words(row)),
        answer: buffer_after(write_record(&made_of(kind - 1, row), room), room),
    }
}

/// How a name of a record is changed.
struct Renaming {
    /// 0 for the source name, 1 for the target name.
    side: usize,
    /// The length it gets.
    length: usize,
    /// The place of the character it gets, none where the place is above 30.
    place: usize,
    /// The character it gets.
    character: u8,
}

/// A case of a record that is read, gets another name and is written.
fn rename_case(name: String, kind: usize, room: usize, to: &Renaming, bytes: &[u8]) -> Case {
    let Renaming { side, length, place, character } = *to;
    let (_, mut record) = read_record(bytes, kind - 1);
    let changed = &mut record.names.as_mut().expect("records of 1021 and 1022 have names")[side];
    changed.length = length;
    if let Some(kept) = changed.characters.get_mut(place) {
        *kept = character;
    }
    Case {
        name,
        call: format!("rename {kind} {room} {side} {length} {place} {character} {}", hex(bytes)),
        answer: buffer_after(write_record(&record, room), room),
    }
}

/// Every reader on sound messages of every number, and on messages refused with 1 to 5.
fn refused_records() -> Vec<Case> {
    let mut cases = Vec::new();
    for kind in 1..=KINDS.len() {
        for number in NUMBERS {
            let usual = Sample::usual(number).bytes();
            cases.push(print_case(format!("record-{kind}-of-{number}"), kind, &usual));
            cases.push(print_case(format!("record-{kind}-of-{number}-cut"), kind, &usual[..usual.len() - 1]));
            let mut filled = usual;
            *filled.last_mut().expect("a message") |= 1;
            cases.push(print_case(format!("record-{kind}-of-{number}-fill"), kind, &filled));
            if let Some((df, value)) = narrow_field(number) {
                let bytes = Sample::usual(number).with(df, value).bytes();
                cases.push(print_case(format!("record-{kind}-of-{number}-range"), kind, &bytes));
            }
        }
        cases.push(print_case(format!("record-{kind}-of-no-byte"), kind, &[]));
        cases.push(print_case(format!("record-{kind}-of-one-byte"), kind, &[0x40]));
        cases.push(print_case(format!("record-{kind}-of-zeros"), kind, &[0; 73]));
    }
    cases
}

/// Every field alone at its greatest value in a message of zeros, and every signed field as none among other values.
fn printed_fields(number: u16) -> Vec<Case> {
    let zeros = Sample::new(number, [b"", b"\x01"], |_| 0);
    let usual = Sample::usual(number);
    let mut cases = Vec::new();
    let mut printed = |sample: &Sample, place: usize, word: &str, reading: Reading| {
        let name = format!("record-{}-{word}", label(sample, place));
        cases.push(print_case(name, kind_of(number), &sample.with_at(place, reading).bytes()));
    };
    for place in plain_places(&zeros) {
        let field = by_df(zeros.dfs[place]);
        printed(&zeros, place, "alone", Some(field.greatest()));
    }
    for place in plain_places(&usual) {
        if by_df(usual.dfs[place]).signed() {
            printed(&usual, place, "none", None);
        }
    }
    cases
}

/// Whole messages at the ends of their ranges, without values, and random ones.
fn printed_rows(number: u16) -> Vec<Case> {
    let kind = kind_of(number);
    let mut random = Random::new(16_000 + number as u64);
    let none = Sample::new(number, [b"n", b"one"], |field| (!field.signed()).then(|| field.greatest()));
    let least = Sample::new(number, [b"", b"\xff\x00"], |field| field.least());
    let longest = Sample::new(number, [&[0xfe; NAME_ROOM], &[0x01; NAME_ROOM]], |field| field.greatest());
    let mut cases = vec![
        print_case(format!("record-{number}-zeros"), kind, &Sample::zeros(number).bytes()),
        print_case(format!("record-{number}-all-none"), kind, &none.bytes()),
        print_case(format!("record-{number}-all-min"), kind, &least.bytes()),
        print_case(format!("record-{number}-all-max"), kind, &longest.bytes()),
    ];
    for i in 0..15 {
        let bytes = Sample::any(&mut random, number).bytes();
        cases.push(print_case(format!("record-{number}-random-{i}"), kind, &bytes));
    }
    cases
}

/// Rows of sound messages made into records and written, at several rooms.
fn made_and_written(number: u16) -> Vec<Case> {
    let kind = kind_of(number);
    let mut random = Random::new(17_000 + number as u64);
    let mut cases = Vec::new();
    let usual = Sample::usual(number);
    let length = usual.bytes().len();
    for room in [0, 1, length - 1, length, length + 1, 160] {
        cases.push(remake_case(format!("remake-{number}-room-{room}"), kind, &usual.row(), room));
    }
    let bad = usual.with(147, 256).row();
    cases.push(remake_case(format!("remake-{number}-order-range-room"), kind, &bad, length - 1));
    let zeros = Sample::zeros(number);
    cases.push(remake_case(format!("remake-{number}-zeros"), kind, &zeros.row(), zeros.bytes().len()));
    for i in 0..10 {
        let sample = Sample::any(&mut random, number);
        let length = sample.bytes().len();
        cases.push(remake_case(format!("remake-{number}-random-{i}"), kind, &sample.row(), length));
        let room = random.below(161) as usize;
        cases.push(remake_case(format!("remake-{number}-random-any-room-{i}"), kind, &sample.row(), room));
    }
    cases
}

/// Every field of a record at values outside its range or width, at its pattern, and at the ends of 64 bits.
fn values_outside(number: u16) -> Vec<Case> {
    let usual = Sample::usual(number);
    let length = usual.bytes().len();
    let mut cases = Vec::new();
    for place in plain_places(&usual) {
        for (word, value) in not_taken(by_df(usual.dfs[place])).into_iter().chain([end_by_turns(place)]) {
            let name = format!("remake-{}-{word}", label(&usual, place));
            cases.push(remake_case(name, kind_of(number), &usual.with_at(place, value).row(), length));
        }
    }
    cases
}

/// Every field of a record made from a none: kept in a signed field and in DF203, else counting as the value 0.
fn nones_made(number: u16) -> Vec<Case> {
    let usual = Sample::usual(number);
    let length = usual.bytes().len();
    plain_places(&usual)
        .into_iter()
        .map(|place| {
            let name = format!("remake-{}-none", label(&usual, place));
            remake_case(name, kind_of(number), &usual.with_at(place, None).row(), length)
        })
        .collect()
}

/// Records of a kind under every message number and others.
fn numbers_of_another_kind(number: u16) -> Vec<Case> {
    let zeros = Sample::zeros(number);
    let mut cases = Vec::new();
    let ends = [("least", i64::MIN), ("greatest", i64::MAX), ("minus-one", -1)];
    let far = [0, 1, 4_095, 4_096 + number as i64, 65_536 + number as i64];
    let others = (1_020..=1_028).chain(far).map(|other| (other.to_string(), other));
    for (word, other) in others.chain(ends.map(|(word, other)| (word.to_string(), other))) {
        let name = format!("remake-{number}-number-{word}");
        cases.push(remake_case(name, kind_of(number), &zeros.with(2, other).row(), 80));
    }
    cases
}

/// Records of 1021 and 1022 with as many fields as a grid message, under numbers of grid messages.
fn as_long_as_a_grid() -> Vec<Case> {
    let mut cases = Vec::new();
    for (number, characters) in [(1021, 39), (1022, 36)] {
        for source in [characters - NAME_ROOM, NAME_ROOM] {
            let names = [vec![0; source], vec![0; characters - source]];
            let sample = Sample::new(number, [&names[0], &names[1]], |_| 0);
            for grid in [1023, 1024] {
                let name = format!("remake-{number}-source-{source}-number-{grid}");
                cases.push(remake_case(name, kind_of(number), &sample.with(2, grid).row(), 160));
            }
        }
    }
    cases
}

/// Records with names of 31 characters and fields at the ends of their ranges.
fn longest_names(number: u16) -> Vec<Case> {
    let mut cases = Vec::new();
    for (word, sample) in [
        ("least", Sample::new(number, [&[255; NAME_ROOM], &[128; NAME_ROOM]], |field| field.least())),
        ("greatest", Sample::new(number, [&[1; NAME_ROOM], &[127; NAME_ROOM]], |field| field.greatest())),
    ] {
        let length = sample.bytes().len();
        cases.push(remake_case(format!("remake-{number}-longest-{word}"), kind_of(number), &sample.row(), length));
        let name = format!("remake-{number}-longest-{word}-short");
        cases.push(remake_case(name, kind_of(number), &sample.row(), length - 1));
    }
    cases
}

/// Both names with other lengths, which cut characters off, add zeros or are above 31.
fn other_lengths(number: u16) -> Vec<Case> {
    let mut cases = Vec::new();
    let bytes = Sample::usual(number).bytes();
    let empty = Sample::zeros(number).bytes();
    let full = Sample::new(number, [&[7; NAME_ROOM], &[9; NAME_ROOM]], |_| 0).bytes();
    for side in 0..2 {
        for length in [0, 1, 3, 4, 5, 6, 30, 31, 32, 33, 63, 64, 127, 128, 200] {
            let to = Renaming { side, length, place: 31, character: 0 };
            for (word, bytes) in [("usual", &bytes), ("empty", &empty), ("full", &full)] {
                let name = format!("rename-{number}-side-{side}-length-{length}-{word}");
                cases.push(rename_case(name, kind_of(number), 160, &to, bytes));
            }
            let name = format!("rename-{number}-side-{side}-length-{length}-no-room");
            cases.push(rename_case(name, kind_of(number), 40, &to, &bytes));
        }
    }
    cases
}

/// Both names with another character, used or behind the used ones.
fn other_characters(number: u16) -> Vec<Case> {
    let mut cases = Vec::new();
    let bytes = Sample::new(number, [b"abcd", b"efgh"], |_| 0).bytes();
    for side in 0..2 {
        for place in [0, 3, 4, 5, 29, 30, 31, 32, 199] {
            let lengths = if place < 4 { vec![4] } else { vec![4, place + 1] };
            for length in lengths {
                for character in [0, 1, 128, 255] {
                    let to = Renaming { side, length, place, character };
                    let name = format!("rename-{number}-s{side}-p{place}-c{character}-l{length}");
                    cases.push(rename_case(name, kind_of(number), bytes.len() + 27, &to, &bytes));
                }
            }
        }
    }
    cases
}

/// Names put into records that were refused when read, which have the number 0.
fn refused_before_renamed(number: u16) -> Vec<Case> {
    let usual = Sample::usual(number).bytes();
    let other_kind = Sample::usual(if number == 1021 { 1022 } else { 1021 }).bytes();
    let mut cases = Vec::new();
    for (word, bytes) in [("cut", &usual[..20]), ("kind", &other_kind), ("no-byte", &[])] {
        for side in 0..2 {
            let to = Renaming { side, length: 2, place: 1, character: 65 };
            let name = format!("rename-{number}-refused-{word}-side-{side}");
            cases.push(rename_case(name, kind_of(number), 127, &to, bytes));
        }
    }
    cases
}
