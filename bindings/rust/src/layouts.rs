//! The order of the data fields in each message, as the list at the end of include/tarnoklej.h has it.

/// The nodes of a grid.
pub const NODES: usize = 16;

/// The data fields of a 1021, a name's characters being one entry.
const LAYOUT_1021: [u16; 27] = [
    2, 143, 144, 145, 146, 147, 148, 149, 150, 151, 152, 153, 154, 155, 156, 157, 158, 159, 160, 161, 162, 166, 167,
    168, 169, 214, 215,
];
/// The data fields of a 1022, a name's characters being one entry.
const LAYOUT_1022: [u16; 30] = [
    2, 143, 144, 145, 146, 147, 148, 149, 150, 151, 152, 153, 154, 155, 156, 157, 158, 159, 160, 161, 162, 163, 164,
    165, 166, 167, 168, 169, 214, 215,
];
/// The data fields of a 1023, the three of a node being there once.
const LAYOUT_1023: [u16; 19] =
    [2, 147, 190, 191, 192, 193, 194, 195, 196, 197, 198, 199, 200, 201, 212, 213, 216, 217, 51];
/// The data fields of a 1024, the three of a node being there once.
const LAYOUT_1024: [u16; 19] =
    [2, 147, 190, 191, 202, 203, 204, 205, 206, 207, 208, 209, 210, 211, 212, 213, 216, 217, 51];
/// The data fields of a 1025.
const LAYOUT_1025: [u16; 8] = [2, 147, 170, 171, 172, 173, 174, 175];
/// The data fields of a 1026.
const LAYOUT_1026: [u16; 9] = [2, 147, 170, 176, 177, 178, 179, 180, 181];
/// The data fields of a 1027.
const LAYOUT_1027: [u16; 11] = [2, 147, 170, 182, 183, 184, 185, 186, 187, 188, 189];
/// The place of a node's three fields in the layout of a grid.
const NODE_FIELDS: std::ops::Range<usize> = 11..14;

/// A place in a row: the DF number of its field, and the number of its node from 1 where it is a node's.
pub(crate) type Place = (u16, Option<u8>);

/// The places of a row of a message number whose names have so many characters, or nothing for another number.
///
/// The lengths are those of source name and target name, and are not looked at where a message has none.
pub(crate) fn places(number: u16, names: [usize; 2]) -> Option<Vec<Place>> {
    match number {
        1021 => Some(with_names(&LAYOUT_1021, names)),
        1022 => Some(with_names(&LAYOUT_1022, names)),
        1023 => Some(with_nodes(&LAYOUT_1023)),
        1024 => Some(with_nodes(&LAYOUT_1024)),
        1025 => Some(plain(&LAYOUT_1025)),
        1026 => Some(plain(&LAYOUT_1026)),
        1027 => Some(plain(&LAYOUT_1027)),
        _ => None,
    }
}

/// The places of fields that are each there once.
fn plain(layout: &[u16]) -> Vec<Place> {
    layout.iter().map(|&df| (df, None)).collect()
}

/// The places of a message with names.
fn with_names(layout: &[u16], [source, target]: [usize; 2]) -> Vec<Place> {
    let times = |df| match df {
        144 => source,
        146 => target,
        _ => 1,
    };
    layout.iter().flat_map(|&df| std::iter::repeat_n((df, None), times(df))).collect()
}

/// The places of a grid.
fn with_nodes(layout: &[u16]) -> Vec<Place> {
    let mut places = plain(&layout[..NODE_FIELDS.start]);
    for node in 1..=NODES as u8 {
        places.extend(layout[NODE_FIELDS].iter().map(|&df| (df, Some(node))));
    }
    places.extend(plain(&layout[NODE_FIELDS.end..]));
    places
}
