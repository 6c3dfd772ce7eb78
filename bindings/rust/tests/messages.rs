//! Messages with their fields by DF number: the data fields against the header's list and docs/FIELDS.md, and what a message is.

mod common;

use common::{in_repository, text_of};
use tarnoklej::*;

/// A line of the header's list: message number, places, DF number, type, resolution and name.
type Listed = (u16, String, u16, String, String, String);

/// The header's list of positions in a row.
fn listed() -> Vec<Listed> {
    let mut number = 0;
    let mut lines = Vec::new();
    for line in text_of("include/tarnoklej.h").lines() {
        let Some(text) = line.strip_prefix(" * ") else { continue };
        if let Some((head, _)) = text.split_once(" fields:") {
            number = head[..4].parse().unwrap_or(number);
        } else if text.starts_with("  ") && text.contains("  DF") {
            let cells: Vec<&str> = text.split("  ").map(str::trim).filter(|cell| !cell.is_empty()).collect();
            let [places, df, field_type, resolution, name] = cells[..] else { panic!("{line}") };
            let df = df[2..].parse().expect("a DF number");
            lines.push((number, places.into(), df, field_type.into(), resolution.into(), name.into()));
        }
    }
    lines
}

/// The resolution with its unit, as the header writes it.
fn resolution_text(field: &DataField) -> String {
    let number = field.resolution.to_string();
    match field.unit {
        None => number,
        Some(Unit::ArcSecond) if number == "2" => format!("{number} arc seconds"),
        Some(Unit::ArcSecond) => format!("{number} arc second"),
        Some(Unit::Degree) => format!("{number} degree"),
        Some(unit) => format!("{number} {}", unit.sign()),
    }
}

#[test]
fn data_fields_are_those_of_the_header() {
    let listed = listed();
    for (_, _, df, field_type, resolution, name) in &listed {
        let field = DataField::of(*df).unwrap_or_else(|| panic!("DF{df:03}"));
        assert_eq!((field.df, field.name, &field.field_type.to_string()), (*df, name.as_str(), field_type));
        assert_eq!(&resolution_text(field), resolution, "{field}");
    }
    let mut numbers: Vec<u16> = listed.iter().map(|line| line.2).collect();
    numbers.sort_unstable();
    numbers.dedup();
    assert_eq!(DataField::all().iter().map(|field| field.df).collect::<Vec<_>>(), numbers);
    assert_eq!(numbers.len(), 77);
}

/// The places that the header lists for a field, where names have so many characters.
fn places_of(text: &str, source: usize, target: usize) -> Vec<usize> {
    let sum = |terms: &str, node: usize| -> usize {
        let term = |term: &str| match term {
            "N" => source,
            "M" => target,
            "3i" => 3 * node,
            number => number.parse().expect("a place"),
        };
        terms.split('+').map(term).sum()
    };
    match text.split_once("..") {
        Some((first, last)) => (sum(first, 0)..=sum(last, 0)).collect(),
        None if text.contains('i') => (0..NODES).map(|node| sum(text, node)).collect(),
        None => vec![sum(text, 0)],
    }
}

#[test]
fn fields_stand_at_the_headers_places() {
    let listed = listed();
    for number in 1_021..=1_027 {
        for (source, target) in [(0, 0), (1, 0), (0, 31), (7, 12), (31, 31)] {
            let mut message = Message::new(number).expect("a message number");
            if message.set_names(&"s".repeat(source), &"t".repeat(target)).is_err() {
                assert!(number > 1_022);
            }
            let mut expected: Vec<(usize, u16)> = Vec::new();
            for (_, places, df, ..) in listed.iter().filter(|line| line.0 == number) {
                expected.extend(places_of(places, source, target).into_iter().map(|place| (place, *df)));
            }
            expected.sort_unstable();
            let ours: Vec<(usize, u16)> = message.fields().iter().map(Field::df).enumerate().collect();
            assert_eq!(ours, expected, "{number}");
            assert!(message.write().is_ok(), "{number}");
        }
    }
}

/// The cells of the table of docs/FIELDS.md.
fn field_cells() -> Vec<Vec<String>> {
    let text = text_of("docs/FIELDS.md");
    let rows = text.lines().filter(|line| line.starts_with("| DF") && !line.starts_with("| DF |"));
    rows.map(|line| line.trim_matches('|').split(" | ").map(|cell| cell.trim().to_string()).collect()).collect()
}

/// The field of a row of docs/FIELDS.md.
fn field_of(cells: &[String]) -> &'static DataField {
    DataField::of(cells[0][2..].parse().expect("a DF number")).expect("a data field")
}

#[test]
fn ranges_are_those_of_the_page_of_fields() {
    let rows = field_cells();
    assert_eq!(rows.len(), 77);
    for cells in rows {
        let field = field_of(&cells);
        let (smallest, greatest) = cells[5].split_once(" to ").expect("a range");
        let [smallest, greatest] = [smallest, greatest].map(|end| end.replace(',', "").parse().expect("a number"));
        assert_eq!((field.smallest, field.greatest), (smallest, greatest), "{field}");
        assert_eq!(field.field_type.bits().to_string(), cells[3], "{field}");
        assert_eq!(field.can_be_absent(), cells[6] != "-", "{field}");
    }
}

#[test]
fn a_quantity_is_the_number_that_the_standard_prints() {
    // Where the printed range is that of the width, its end is the greatest value in its unit.
    let mut compared = 0;
    for cells in field_cells().iter().filter(|cells| cells[10].starts_with("agree") && cells[9] != "-") {
        let field = field_of(cells);
        let last = cells[8].rsplit(['±', '–']).next().expect("a range").trim();
        let (end, _) = last.split_once(' ').unwrap_or((last, ""));
        assert_eq!(field.quantity(field.greatest).decimal(), end.replace(',', ""), "{field}");
        compared += 1;
    }
    assert_eq!(compared, 31);
}

#[test]
fn a_decimal_has_the_places_of_its_resolution() {
    let decimal = |df: u16, value: i64| DataField::of(df).expect("a data field").quantity(value).decimal();
    assert_eq!((decimal(198, 0), decimal(198, -1), decimal(198, 5)), ("0.00".into(), "-0.01".into(), "0.05".into()));
    assert_eq!((decimal(192, 1), decimal(192, -3), decimal(193, 2)), ("0.5".into(), "-1.5".into(), "1.0".into()));
    assert_eq!((decimal(199, -1), decimal(199, 255)), ("-0.00003".into(), "0.00765".into()));
    assert_eq!((decimal(152, -162_000), decimal(202, 7)), ("-324000".into(), "70".into()));
    assert_eq!((decimal(171, 1), decimal(185, 32_727_272_727)), ("0.000000011".into(), "359.999999997".into()));
}

#[test]
fn bases_are_those_of_table_3_4_1() {
    let printed =
        [(166, 6_370_000), (167, 6_350_000), (168, 6_370_000), (169, 6_350_000), (173, 993_000), (187, 993_000)];
    for field in DataField::all() {
        let base = printed.iter().find(|(df, _)| *df == field.df).map_or(0, |(_, base)| *base);
        assert_eq!(field.base, base, "{field}");
        if base == 0 {
            assert_eq!(field.quantity_with_base(field.greatest), field.quantity(field.greatest), "{field}");
        }
    }
    let with_base =
        |df: u16, value: i64| DataField::of(df).expect("a data field").quantity_with_base(value).to_string();
    assert_eq!(
        (with_base(166, 8_137_000), with_base(169, 6_078_963)),
        ("6378137.000 m".into(), "6356078.963 m".into())
    );
    assert_eq!(
        (with_base(173, 700_000_000), with_base(187, 1)),
        ("1000000.00000 ppm".into(), "993000.00001 ppm".into())
    );
}

#[test]
fn fields_are_printed_for_people() {
    let helmert = service("a-helmert-gauss-krueger/1021.rtcm");
    let printed = |df: u16| helmert.field(df).expect("a field of a 1021").to_string();
    // The axes are those of the ellipsoids GRS80 and Bessel, the source is EPSG 4936.
    assert_eq!(printed(166), "DF166 Semi-major Axis of Source System Ellipsoid: 6370000 + 8137.000 m");
    assert_eq!(printed(168), "DF168 Semi-major Axis of Target System Ellipsoid: 6370000 + 7397.155 m");
    assert_eq!(printed(144), "DF144 Source-Name: 52 '4'");
    assert_eq!(helmert.source_name().as_deref(), Some("4936"));
    let absent = Message::new(1023).and_then(|mut grid| grid.set_node(199, 3, None).cloned()).expect("a grid");
    let node = absent.node_field(199, 3).expect("a node");
    assert_eq!(node.to_string(), "DF199 Latitude Residual, node 3: not available");
}

#[test]
fn a_double_is_the_one_nearest_to_its_decimal() {
    for field in DataField::all() {
        for value in [field.smallest, field.greatest, field.greatest / 3, 1, 7] {
            let quantity = field.quantity(value);
            assert_eq!(quantity.decimal().parse(), Ok(quantity.to_f64()), "{field} {value}");
        }
    }
}

/// The sound message of a made-up service.
fn service(file: &str) -> Message {
    let bytes = std::fs::read(in_repository("services").join(file)).expect("a service's message");
    Message::read(&bytes).expect("a sound message")
}

#[test]
fn a_services_message_is_what_its_page_says() {
    let helmert = service("a-helmert-gauss-krueger/1021.rtcm");
    assert_eq!((helmert.number(), helmert.sin(), helmert.group()), (1_021, Some(11), Group::Transformation));
    assert_eq!(helmert.value(150), Some(0));
    let badekas = service("b-molodenski-badekas-lambert/1022.rtcm");
    assert_eq!((badekas.number(), badekas.sin(), badekas.group()), (1_022, Some(22), Group::Transformation));
    let heights = service("c-heights-only/1023.rtcm");
    assert_eq!((heights.sin(), heights.value(190), heights.value(191)), (Some(33), Some(0), Some(1)));
    assert_eq!(service("c-heights-only/1021.rtcm").value(151), Some(2));
    let across = service("e-across-the-antimeridian/1023.rtcm");
    // From 179.65 to -179.75 degrees the middle is 179.95 degrees, and nodes are a third of 0.6 degrees apart.
    assert_eq!(across.field(193).expect("a longitude").to_string(), "DF193 Longitude of Origin of Grids: 647820.0\"");
    assert_eq!(across.field(195).expect("a spacing").to_string(), "DF195 E/W Grid Area Extension: 720.0\"");
    let mercator = service("d-oblique-mercator/1027.rtcm");
    assert_eq!((mercator.number(), mercator.sin(), mercator.group()), (1_027, Some(44), Group::Projection));
}

#[test]
fn names_are_text() {
    let mut message = Message::new(1021).expect("a transformation");
    assert_eq!((message.source_name(), message.target_name()), (Some(String::new()), Some(String::new())));
    message.set_names("4258", "Grüße").expect("two names");
    let bytes = message.write().expect("a sound row");
    assert_eq!(bytes.len(), 52 + 9);
    let again = Message::read(&bytes).expect("a sound message");
    assert_eq!(again, message);
    assert_eq!((again.source_name(), again.target_name()), (Some("4258".into()), Some("Grüße".into())));
    assert_eq!((again.value(143), again.value(145)), (Some(4), Some(5)));
    let every: String = (0..=255u8).map(char::from).collect();
    for (place, _) in every.char_indices().filter(|(place, _)| every.is_char_boundary(*place)).step_by(31) {
        let name: String = every[place..].chars().take(31).collect();
        message.set_names(&name, "").expect("a name");
        let read = Message::read(&message.write().expect("a sound row")).expect("a sound message");
        assert_eq!(read.source_name().as_ref(), Some(&name));
    }
    let before = message.clone();
    for name in ["Łódź", &"x".repeat(32)] {
        assert_eq!(message.set_names(name, "").err(), Some(Refusal::Range));
        assert_eq!(message.set_names("", name).err(), Some(Refusal::Range));
    }
    assert_eq!(message, before);
    assert_eq!(Message::new(1023).expect("a grid").set_names("a", "b").err(), Some(Refusal::Range));
    assert_eq!(Message::new(1023).expect("a grid").source_name(), None);
}

#[test]
fn a_message_that_is_none_is_not_written() {
    for number in [0, 1_020, 1_028, u16::MAX] {
        assert_eq!(Message::new(number), Err(Refusal::Number));
    }
    let mut message = Message::new(1025).expect("a projection");
    assert_eq!(message.set(192, 1).err(), Some(Refusal::Range));
    assert_eq!(message.set_node(201, 1, 1).err(), Some(Refusal::Range));
    for (df, value) in [(147, Some(256)), (147, None), (170, Some(-1)), (171, Some(8_181_818_182)), (2, Some(1_024))] {
        let mut other = message.clone();
        other.set(df, value).expect("a field of a 1025");
        assert_eq!(other.write(), Err(Refusal::Range), "DF{df} {value:?}");
    }
    message.set(171, None).expect("a field of a 1025");
    assert!(message.write().is_ok());
    let mut grid = example::grid_k_fields();
    for node in [0, 17, 255] {
        assert_eq!(grid.set_node(201, node, 1).err(), Some(Refusal::Range));
        assert_eq!(grid.node_field(201, node), None);
    }
}

#[test]
fn the_first_field_of_a_number_is_set() {
    let mut grid = example::grid_k_fields();
    grid.set(201, -7).expect("a field of a 1023");
    assert_eq!((grid.value(201), grid.value_at_node(201, 1)), (Some(-7), Some(-7)));
    let others: Vec<Option<i64>> = (2..=16).map(Some).collect();
    assert_eq!(grid.nodes(201).map(|nodes| nodes[1..].to_vec()), Some(others));
    grid.set_node(201, 16, 9).expect("a node of a 1023");
    assert_eq!((grid.value_at_node(201, 15), grid.value_at_node(201, 16)), (Some(15), Some(9)));
}

#[test]
fn the_nodes_of_a_grid() {
    let grid = example::grid_k_fields();
    assert_eq!(grid.nodes(201), Some(std::array::from_fn(|i| Some(i as i64 + 1))));
    assert_eq!(grid.nodes(199), Some([Some(0); NODES]));
    assert_eq!((grid.nodes(198), grid.nodes(209)), (None, None));
    assert_eq!((grid.value_at_node(201, 16), grid.value_at_node(201, 17)), (Some(16), None));
}

#[test]
fn a_row_that_is_no_messages_makes_none() {
    let sound = example::grid_k_fields().row();
    assert_eq!(Message::from_row(&sound).map(|message| message.row()), Some(sound.clone()));
    assert_eq!(Message::from_row(&[]), None);
    assert_eq!(Message::from_row(&sound[..63]), None);
    assert_eq!(Message::from_row(&[&sound[..], &[Some(0)]].concat()), None);
    for number in [None, Some(-1), Some(1_020), Some(1_025), Some(65_536 + 1_023), Some(i64::MAX)] {
        assert_eq!(Message::from_row(&[&[number], &sound[1..]].concat()), None);
    }
    for counter in [None, Some(-1), Some(1), Some(32), Some(i64::MAX)] {
        let mut row = Message::new(1021).expect("a transformation").row();
        row[1] = counter;
        assert_eq!(Message::from_row(&row), None, "{counter:?}");
    }
}
