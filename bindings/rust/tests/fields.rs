//! Messages as rows: reading and writing, fields without a value, buffers that are no row, and the made-up services.

mod common;

use common::{in_repository, projection};
use std::path::PathBuf;
use tarnoklej::*;

/// A row whose fields all have values.
fn row_of(values: &[i64]) -> Vec<Option<i64>> {
    values.iter().copied().map(Some).collect()
}

/// The message of a sound row.
fn written(row: &[Option<i64>]) -> Vec<u8> {
    write_fields(row).expect("a sound row")
}

#[test]
fn empty_names_make_52_bytes() {
    let row = [[1021].as_slice(), &[0; 24]].concat();
    let mut message = written(&row_of(&row));
    assert_eq!(read(&message), Ok(Header { number: 1021, length: 52, sin: 0 }));
    message[51] |= 1;
    assert_eq!(read(&message), Err(Refusal::Fill));
    message.push(0);
    assert_eq!(read(&message), Err(Refusal::Length));
}

#[test]
fn longest_names_are_read_and_written() {
    let name = [[31].as_slice(), &[255; 31]].concat();
    for (number, others, length) in [(1021, 22, 114), (1022, 25, 127)] {
        let row = row_of(&[&[number], &name[..], &name, &vec![0; others]].concat());
        let message = written(&row);
        assert_eq!(message.len(), length);
        assert_eq!(read_fields(&message), Ok(row));
    }
}

/// The row of a 1025 whose fields behind the system identification number are zero.
fn projection_row() -> Vec<Option<i64>> {
    row_of(&[1025, 5, 0, 0, 0, 0, 0, 0])
}

/// The row of document 01's P12 with another latitude of origin (DF152).
fn p12_row(latitude: Option<i64>) -> Vec<Option<i64>> {
    let mut row = row_of(&[[1021].as_slice(), &[0; 24]].concat());
    row[8] = latitude;
    row
}

#[test]
fn a_field_without_a_value_is_read_and_written() {
    for latitude in [Some(162_000), Some(-162_000), None] {
        let message = written(&p12_row(latitude));
        assert_eq!(read_fields(&message), Ok(p12_row(latitude)));
    }
    for latitude in [-262_144, 162_001, -162_001] {
        assert_eq!(write_fields(&p12_row(Some(latitude))), Err(Refusal::Range));
    }
    let none = written(&p12_row(None));
    let some = written(&p12_row(Some(0)));
    let differing: Vec<u8> = none.iter().zip(&some).map(|(one, other)| one ^ other).filter(|&bits| bits != 0).collect();
    assert_eq!(differing, [0x10]);
}

#[test]
fn a_none_in_an_unsigned_field_is_refused() {
    let signed = [3, 4, 7];
    for place in 0..8 {
        let mut row = projection_row();
        row[place] = None;
        let expected = if signed.contains(&place) { Ok(25) } else { Err(Refusal::Range) };
        assert_eq!(write_fields_into(&row, &mut [0; 25]), expected);
    }
}

#[test]
fn a_row_of_too_many_fields_is_refused() {
    let longest = row_of(&[&[1022, 31][..], &[0; 31], &[31], &[0; 31], &[0; 25]].concat());
    assert_eq!((longest.len(), written(&longest).len()), (MOST_FIELDS, MOST_BYTES));
    for more in [1, 2, 1_000] {
        let row = [&longest[..], &vec![Some(0); more]].concat();
        assert_eq!(write_fields(&row), Err(Refusal::Range));
    }
}

/// What the library answers to a row as two buffers.
fn written_from(values: &[i64], present: &[u8]) -> ffi::Written {
    let mut out = [0; MOST_BYTES];
    let (values_count, present_count, room) = (values.len(), present.len(), out.len());
    let (values, present, out) = (values.as_ptr(), present.as_ptr(), out.as_mut_ptr());
    // SAFETY: the pointers and lengths are those of slices that do not overlap.
    unsafe { ffi::tarnoklej_write_fields(values, values_count, present, present_count, out, room) }
}

#[test]
fn buffers_that_are_no_row_are_refused() {
    let values = [1025, 5, 0, 0, 0, 0, 0, 0];
    let done = ffi::Written { refusal: 0, length: 25 };
    let range = ffi::Written { refusal: 5, length: 0 };
    assert_eq!(written_from(&values, &[1; 8]), done);
    assert_eq!(written_from(&values, &[1, 1, 1, 1, 0, 1, 1, 1]), done);
    for present in 2..=255 {
        assert_eq!(written_from(&values, &[1, 1, 1, 1, present, 1, 1, 1]), range);
    }
    assert_eq!(written_from(&[1025, 5, 0, 0, 1, 0, 0, 0], &[1, 1, 1, 1, 0, 1, 1, 1]), range);
    for count in [0, 1, 7, 9, 64] {
        assert_eq!(written_from(&values, &vec![1; count]), range);
        assert_eq!(written_from(&vec![1025; count], &[1; 8]), range);
    }
}

/// The refusal of reading a message into two buffers, and the buffers afterwards.
fn read_into(message: &[u8], values_room: usize, present_room: usize) -> (u8, Vec<i64>, Vec<u8>) {
    let (mut values, mut present) = (vec![-1; values_room], vec![0xa5; present_room]);
    let (bytes, length) = (message.as_ptr(), message.len());
    let (to, beside) = (values.as_mut_ptr(), present.as_mut_ptr());
    // SAFETY: the pointers and lengths are those of slices that do not overlap.
    let refusal = unsafe { ffi::tarnoklej_read_fields(bytes, length, to, values_room, beside, present_room) };
    (refusal, values, present)
}

#[test]
fn a_short_row_or_buffer_stays_as_it_was() {
    let message = projection(5);
    let mut row = [Some(-1); 7];
    assert_eq!(read_fields_into(&message, &mut row), Err(Refusal::Room));
    assert_eq!(row, [Some(-1); 7]);
    for (values, present) in [(7, 8), (8, 7), (0, 8), (8, 0), (0, 0), (7, 90), (90, 7)] {
        assert_eq!(read_into(&message, values, present), (6, vec![-1; values], vec![0xa5; present]));
    }
    let (refusal, values, present) = read_into(&message, 9, 10);
    assert_eq!((refusal, &values[..]), (0, &[1025, 5, 0, 0, 0, 0, 0, 0, -1][..]));
    assert_eq!(present, [1, 1, 1, 1, 1, 1, 1, 1, 0xa5, 0xa5]);
    let mut out = [0xa5; 24];
    assert_eq!(write_fields_into(&projection_row(), &mut out), Err(Refusal::Room));
    assert_eq!(out, [0xa5; 24]);
}

#[test]
fn empty_slices_are_refused() {
    assert_eq!(read(&[]), Err(Refusal::Short));
    assert_eq!(read_fields(&[]), Err(Refusal::Short));
    assert_eq!(read_fields_into(&[], &mut []), Err(Refusal::Short));
    assert_eq!(write_fields(&[]), Err(Refusal::Range));
    assert_eq!(write_fields_into(&[], &mut []), Err(Refusal::Range));
    assert_eq!(Message::read(&[]), Err(Refusal::Short));
}

/// The sound messages of the made-up services.
fn sound_services() -> Vec<Vec<u8>> {
    let folders = std::fs::read_dir(in_repository("services")).expect("the services").flatten();
    let files = folders.filter_map(|folder| std::fs::read_dir(folder.path()).ok()).flatten().flatten();
    let sound =
        |path: &PathBuf| path.file_name().is_some_and(|name| name.len() == "1021.rtcm".len() && name != "README.md");
    files.map(|file| file.path()).filter(sound).map(|path| std::fs::read(path).expect("a message")).collect()
}

#[test]
fn services_are_read_written_and_stored() {
    let messages = sound_services();
    assert_eq!(messages.len(), 15);
    let groups = [0, 0, 1, 1, 2, 2, 2];
    let mut table = Table::new();
    for (message, owner) in messages.iter().zip(Owner::ALL.into_iter().cycle()) {
        let header = read(message).expect("a sound message");
        assert_eq!(header.length, message.len());
        assert_eq!(header.group().number(), groups[usize::from(header.number) - 1021]);
        assert_eq!(&written(&read_fields(message).expect("a sound message")), message);
        assert_eq!(Message::read(message).and_then(|fields| fields.write()).as_ref(), Ok(message));
        assert_eq!(table.store(owner, message), Ok(()));
        let key = Key { owner, sin: header.sin, group: header.group() };
        assert_eq!(table.find(key).map(|found| found.message), Ok(&message[..]));
    }
    let kept: Vec<(Key, Vec<u8>)> = table.messages().map(|(key, message)| (key, message.to_vec())).collect();
    assert!(kept.is_sorted_by(|one, next| one.0 < next.0), "{kept:?}");
    let sorted = |mut list: Vec<Vec<u8>>| {
        list.sort();
        list
    };
    assert_eq!(sorted(kept.into_iter().map(|(_, message)| message).collect()), sorted(messages));
}
