//! Refusals, components, owners, groups and sizes against the header.

mod common;

use common::text_of;
use tarnoklej::*;

/// The names and numbers of the header's enumerations.
fn enumerated(header: &str) -> Vec<(String, usize)> {
    header.lines().filter_map(enumerator).collect()
}

/// The name and the number of a line such as `TARNOKLEJ_SHORT = 1, /* a message of under 2 bytes */`.
fn enumerator(line: &str) -> Option<(String, usize)> {
    let (name, rest) = line.trim_start().strip_prefix("TARNOKLEJ_")?.split_once(" = ")?;
    let digits = rest.chars().take_while(char::is_ascii_digit).count();
    Some((name.to_string(), rest[..digits].parse().ok()?))
}

#[test]
fn refusals_have_the_headers_numbers() {
    let header = enumerated(&text_of("include/tarnoklej.h"));
    let first = header.iter().position(|(name, _)| name == "DONE").expect("the refusals begin with DONE");
    let end = header.iter().position(|(name, _)| name == "TABLE_SIZE").expect("the sizes stand behind the refusals");
    let ours = Refusal::ALL.map(|refusal| (refusal.name().to_string(), usize::from(refusal.number())));
    assert_eq!(ours, header[first + 1..end]);
}

#[test]
fn a_number_is_one_refusal_or_none() {
    for refusal in Refusal::ALL {
        assert_eq!(Refusal::from_number(refusal.number()), Some(refusal));
        assert_eq!(format!("{refusal:?}").to_uppercase(), refusal.name());
        let printed = format!("{} ({}): {}", refusal.name(), refusal.number(), refusal.words());
        assert_eq!(refusal.to_string(), printed);
    }
    for number in (26..=255).chain([0]) {
        assert_eq!(Refusal::from_number(number), None);
    }
}

/// The first number that is read as a unit of a shift, or as none.
fn number_of(unit: Option<Unit>) -> usize {
    (0..=255).find(|number| Unit::of_shift(*number) == unit).map(usize::from).expect("a number of the unit")
}

#[test]
fn sizes_components_and_groups_are_the_headers() {
    let ours = [
        ("TABLE_SIZE", TABLE_SIZE),
        ("SLOTS", SLOTS),
        ("OWNER_SLOTS", OWNER_SLOTS),
        ("SLOT_SIZE", SLOT_SIZE),
        ("INDEX_SIZE", INDEX_SIZE),
        ("MOST_PROBES", usize::from(MOST_PROBES)),
        ("MOST_BYTES", MOST_BYTES),
        ("MOST_FIELDS", MOST_FIELDS),
        ("FRAME_HEAD", FRAME_HEAD),
        ("FRAME_TAIL", FRAME_TAIL),
        ("MOST_FRAMED", MOST_FRAMED),
        ("MOST_POINTS", MOST_POINTS),
        ("MOST_PLACES", MOST_PLACES),
        ("SAMPLES_HEAD", SAMPLES_HEAD),
        ("SAMPLE_SIZE", SAMPLE_SIZE),
        ("MOST_SAMPLES", MOST_SAMPLES),
        ("NORTH_SOUTH", usize::from(Component::NorthSouth.number())),
        ("EAST_WEST", usize::from(Component::EastWest.number())),
        ("HEIGHT", usize::from(Component::Height.number())),
        ("TRANSFORMATION", usize::from(Group::Transformation.number())),
        ("GRID", usize::from(Group::Grid.number())),
        ("PROJECTION", usize::from(Group::Projection.number())),
        ("NO_UNIT", number_of(None)),
        ("ARC_SECONDS", number_of(Some(Unit::ArcSecond))),
        ("METRES", number_of(Some(Unit::Metre))),
    ];
    let header = enumerated(&text_of("include/tarnoklej.h"));
    let first = header.iter().position(|(name, _)| name == "TABLE_SIZE").expect("the sizes");
    let expected: Vec<(&str, usize)> = header[first..].iter().map(|(name, number)| (name.as_str(), *number)).collect();
    assert_eq!(ours.to_vec(), expected);
}

#[test]
fn other_numbers_are_refused_as_the_library_refuses_them() {
    for number in 0..=255u8 {
        let component = Component::try_from(number).map(Component::number);
        assert_eq!(component, if number < 3 { Ok(number) } else { Err(Refusal::Component) });
        let owner = Owner::try_from(number).map(Owner::number);
        assert_eq!(owner, if number == 1 || number == 2 { Ok(number) } else { Err(Refusal::Owner) });
        let group = Group::try_from(number).map(Group::number);
        assert_eq!(group, if number < 3 { Ok(number) } else { Err(Refusal::None) });
    }
}

#[test]
fn a_group_is_that_of_its_messages() {
    for (number, group) in (1_021..).zip([0, 0, 1, 1, 2, 2, 2]) {
        assert_eq!(Group::of_message(number).map(Group::number), Some(group));
    }
    for number in [0, 1_020, 1_028, u16::MAX] {
        assert_eq!(Group::of_message(number), None);
    }
}
