//! Tables of two owners with their index.

mod common;

use common::projection;
use tarnoklej::*;

/// The key of an owner's projection.
fn key(owner: Owner, sin: u8) -> Key {
    Key { owner, sin, group: Group::Projection }
}

/// A 1025 of zeros with a system identification number and a projection type, DF170.
fn projection_of_type(sin: u8, kind: i64) -> Vec<u8> {
    write_fields(&[1025, i64::from(sin), kind, 0, 0, 0, 0, 0].map(Some)).expect("a sound row")
}

/// A table in which each owner has the first so many projections.
fn table_of(one: u8, two: u8) -> Table {
    let mut table = Table::new();
    fill(&mut table, Owner::One, one);
    fill(&mut table, Owner::Two, two);
    table
}

/// Stores the projections of the first system identification numbers for an owner.
fn fill(table: &mut Table, owner: Owner, sins: u8) {
    (0..sins).for_each(|sin| table.store(owner, &projection(sin)).expect("a slot for the owner"));
}

/// A table and an index as the free functions take them.
type Buffers = ([u8; TABLE_SIZE], [u8; INDEX_SIZE]);

/// The buffers of a table.
fn buffers_of(table: &Table) -> Buffers {
    (*table.bytes(), *table.index())
}

/// Where a message was found, and the message.
fn shown(table: &Table, owner: Owner, sin: u8) -> Result<(usize, Vec<u8>), Refusal> {
    table.find(key(owner, sin)).map(|found| (found.at, found.message.to_vec()))
}

#[test]
fn the_21st_key_of_an_owner_is_refused_and_12_slots_are_there_for_the_other() {
    for owner in Owner::ALL {
        let other = owner.other();
        let mut table = Table::new();
        fill(&mut table, owner, 20);
        let before = table.clone();
        assert_eq!(table.store(owner, &projection(20)), Err(Refusal::Full));
        assert_eq!(table, before);
        fill(&mut table, other, 12);
        assert_eq!(table.store(other, &projection(12)), Err(Refusal::Full));
        assert_eq!(table.store(other, &projection(11)), Ok(()));
        assert_eq!(table.remove(key(owner, 9)), Ok(()));
        assert_eq!(table.store(other, &projection(12)), Ok(()));
        assert_eq!(shown(&table, other, 12), Ok((9 * SLOT_SIZE + 2, projection(12))));
        assert_eq!(table.store(owner, &projection(9)), Err(Refusal::Full));
    }
}

#[test]
fn neither_owner_shows_replaces_or_removes_what_the_other_has() {
    let mut table = Table::new();
    let (one, other) = (projection(5), projection_of_type(5, 3));
    assert_eq!(table.store(Owner::One, &one), Ok(()));
    assert_eq!(shown(&table, Owner::Two, 5), Err(Refusal::None));
    assert_eq!(table.remove(key(Owner::Two, 5)), Err(Refusal::None));
    assert_eq!(table.store(Owner::Two, &other), Ok(()));
    assert_eq!(shown(&table, Owner::One, 5), Ok((2, one)));
    assert_eq!(shown(&table, Owner::Two, 5), Ok((SLOT_SIZE + 2, other.clone())));
    assert_eq!(table.remove(key(Owner::One, 5)), Ok(()));
    assert_eq!(shown(&table, Owner::Two, 5), Ok((SLOT_SIZE + 2, other)));
}

#[test]
fn the_index_is_sorted_and_unused_entries_are_zero_and_at_the_end() {
    let mut table = Table::new();
    for (owner, sin) in [(Owner::Two, 9), (Owner::One, 200), (Owner::Two, 0), (Owner::One, 7)] {
        table.store(owner, &projection(sin)).expect("a free slot");
    }
    let used = [1, 7, 2, 3, 1, 200, 2, 1, 2, 0, 2, 2, 2, 9, 2, 0];
    assert_eq!(table.index()[..16], used);
    assert_eq!(table.index()[16..], [0; 112]);
    table.remove(key(Owner::One, 200)).expect("stored");
    assert_eq!(table.index()[..12], [1, 7, 2, 3, 2, 0, 2, 2, 2, 9, 2, 0]);
    assert_eq!(table.index()[12..], [0; 116]);
}

#[test]
fn every_number_of_probes_is_met_in_a_full_table() {
    let table = table_of(16, 16);
    let mut met = [0; MOST_PROBES as usize + 1];
    for owner in Owner::ALL {
        for sin in 0..16 {
            met[table.find(key(owner, sin)).expect("stored").probes as usize] += 1;
        }
    }
    assert_eq!(met, [0, 1, 2, 4, 8, 16, 1]);
    assert_eq!(table.find(key(Owner::One, 15)).map(|found| found.probes), Ok(1));
    assert_eq!(table.find(key(Owner::Two, 15)).map(|found| found.probes), Ok(6));
    assert_eq!(table.find(key(Owner::Two, 16)), Err(Refusal::None));
    let refused = raw_find(table.bytes(), table.index(), 2, 16, 2);
    assert_eq!(refused, ffi::Found { refusal: 17, at: 0, length: 0, probes: 0 });
}

/// What the library answers to a find by numbers.
fn raw_find(table: &[u8], index: &[u8], owner: u8, sin: u8, group: u8) -> ffi::Found {
    // SAFETY: the pointers and lengths are those of slices.
    unsafe { ffi::tarnoklej_find(table.as_ptr(), table.len(), index.as_ptr(), index.len(), owner, sin, group) }
}

/// The refusal numbers of a store and a remove by numbers, which must leave both buffers as they are.
fn raw_writing((table, index): &Buffers, owner: u8, message: &[u8], group: u8) -> [u8; 2] {
    let (mut bytes, mut entries) = (*table, *index);
    let (table_at, index_at) = (bytes.as_mut_ptr(), entries.as_mut_ptr());
    // SAFETY: the pointers and lengths are those of slices that do not overlap.
    let refusals = unsafe {
        [
            ffi::tarnoklej_store(table_at, TABLE_SIZE, index_at, INDEX_SIZE, owner, message.as_ptr(), message.len()),
            ffi::tarnoklej_remove(table_at, TABLE_SIZE, index_at, INDEX_SIZE, owner, 0, group),
        ]
    };
    assert_eq!((&bytes, &entries), (table, index));
    refusals
}

/// Makes all calls that write on copies of buffers, and gives their refusals where they change nothing.
fn refusals_of_writing((table, index): &Buffers, owner: Owner, message: &[u8]) -> [Result<(), Refusal>; 2] {
    let (mut bytes, mut entries) = (*table, *index);
    let refusals = [store(&mut bytes, &mut entries, owner, message), remove(&mut bytes, &mut entries, key(owner, 0))];
    assert_eq!((&bytes, &entries), (table, index));
    refusals
}

#[test]
fn other_owners_are_refused_in_order() {
    let sound = buffers_of(&table_of(20, 1));
    let number = Refusal::number;
    for owner in (3..=255).chain([0]) {
        let (mut table, mut index) = sound;
        assert_eq!(raw_writing(&(table, index), owner, &[], 9), [number(Refusal::Owner); 2]);
        assert_eq!(raw_find(&table, &index, owner, 0, 9).refusal, number(Refusal::Owner));
        index[127] = 1;
        assert_eq!(raw_writing(&(table, index), owner, &[], 9), [number(Refusal::Index); 2]);
        table[TABLE_SIZE - 1] = 1;
        assert_eq!(raw_writing(&(table, index), owner, &[], 9), [number(Refusal::Table); 2]);
        assert_eq!(raw_find(&table, &index, owner, 0, 9).refusal, number(Refusal::Owner));
        assert_eq!(raw_find(&table, &index[1..], owner, 0, 9).refusal, number(Refusal::Index));
        assert_eq!(raw_find(&table[1..], &index[1..], owner, 0, 9).refusal, number(Refusal::Table));
        assert_eq!(Owner::try_from(owner), Err(Refusal::Owner));
    }
    for group in 3..=255 {
        assert_eq!(raw_writing(&sound, 1, &[], group), [number(Refusal::Short), number(Refusal::None)]);
        assert_eq!(raw_find(&sound.0, &sound.1, 1, 0, group).refusal, number(Refusal::None));
        assert_eq!(Group::try_from(group), Err(Refusal::None));
    }
}

#[test]
fn a_table_that_is_not_well_formed_is_refused() {
    let mut sound = table_of(20, 0);
    sound.store(Owner::Two, &projection(20)).expect("a free slot");
    let last = 20 * SLOT_SIZE;
    let changes = [(0, 0), (0, 3), (1, 24), (last, 1), (last, 255), (last + 129, 1), (last + 130, 1), (last + 131, 1)];
    for (at, byte) in changes.into_iter().chain([(TABLE_SIZE - 1, 1), (31 * SLOT_SIZE, 1)]) {
        let (mut table, index) = buffers_of(&sound);
        table[at] = byte;
        assert_eq!(
            refusals_of_writing(&(table, index), Owner::Two, &projection(20)),
            [Err(Refusal::Table); 2],
            "{at} is {byte}"
        );
        assert_eq!(index_agrees(&table, &index), Err(Refusal::Table));
        assert_eq!(write_index(&table, &mut [7; INDEX_SIZE]), Err(Refusal::Table));
        assert_eq!(Table::from_bytes(&table), Err(Refusal::Table));
        // Only the slot of the entry is read by a find.
        assert_eq!(find(&table, &index, key(Owner::One, 7)).map(|found| found.at), Ok(7 * SLOT_SIZE + 2));
    }
    assert_eq!(Table::from_bytes(&sound.bytes()[1..]), Err(Refusal::Table));
    let mut bytes = *sound.bytes();
    bytes[0] = 2;
    let table = Table::from_bytes(&bytes).expect("a well-formed table");
    assert_eq!(shown(&table, Owner::Two, 0), Ok((2, projection(0))));
}

#[test]
fn an_index_that_does_not_agree_is_refused_and_written_anew() {
    let sound = table_of(3, 2);
    let entries = sound.index();
    let mut wrong: Vec<[u8; INDEX_SIZE]> = Vec::new();
    let mut change = |bytes: &[u8], at: usize| {
        let mut index = *entries;
        index[at..at + bytes.len()].copy_from_slice(bytes);
        wrong.push(index);
    };
    change(&[1, 1, 2, 1, 1, 0, 2, 0], 0);
    change(&[0, 0, 0, 0], 4);
    change(&[0, 0, 0, 0], 16);
    change(&[2, 2, 2, 5], 20);
    change(&[1, 1, 2, 1, 1, 1, 2, 1], 4);
    change(&[2], 3);
    change(&[32], 3);
    change(&[0], 8);
    change(&[0, 1, 0, 0], 20);
    change(&[1], 127);
    for index in wrong {
        assert_eq!(refusals_of_writing(&(*sound.bytes(), index), Owner::One, &projection(0)), [Err(Refusal::Index); 2]);
        assert_eq!(index_agrees(sound.bytes(), &index), Err(Refusal::Index));
        let mut anew = index;
        assert_eq!(write_index(sound.bytes(), &mut anew), Ok(()));
        assert_eq!(&anew, entries);
    }
}

#[test]
fn an_index_of_a_wrong_size_is_refused() {
    let (mut table, _) = buffers_of(&table_of(2, 2));
    for size in [0, 4, 127, 129, 132] {
        let mut index = vec![0; size];
        assert_eq!(index_agrees(&table, &index), Err(Refusal::Index));
        assert_eq!(find(&table, &index, key(Owner::One, 0)), Err(Refusal::Index));
        assert_eq!(write_index(&table, &mut index), Err(Refusal::Index));
        assert_eq!(store(&mut table, &mut index, Owner::One, &projection(0)), Err(Refusal::Index));
        assert_eq!(remove(&mut table, &mut index, key(Owner::One, 0)), Err(Refusal::Index));
        assert_eq!(index, vec![0; size]);
    }
}

#[test]
fn an_entry_that_is_not_true_to_its_slot_is_refused_by_a_find() {
    let (table, sound) = buffers_of(&table_of(1, 1));
    for slot in 0..=255 {
        let mut index = sound;
        index[3] = slot;
        let expected = if slot == 0 { Ok(2) } else { Err(Refusal::Index) };
        assert_eq!(find(&table, &index, key(Owner::One, 0)).map(|found| found.at), expected);
    }
}

#[test]
fn a_found_message_is_the_table_itself() {
    let table = table_of(3, 0);
    let found = table.find(key(Owner::One, 2)).expect("stored");
    assert_eq!(found.message.as_ptr(), table.bytes()[found.at..].as_ptr());
}
