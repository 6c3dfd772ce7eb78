//! The contents of messages 1021 to 1027, in the order of tables 3.5-24 to 3.5-30 of source document 000.

use crate::fields::by_df;

/// One entry of a message table.
#[derive(Clone, Copy, Debug)]
pub enum Part {
    /// One data field.
    One(u16),
    /// A name: its counter and then as many characters.
    Name { counter: u16, character: u16 },
    /// Sixteen grid points of three residuals each.
    SixteenPoints([u16; 3]),
}

use Part::{Name, One, SixteenPoints};

/// The message numbers in rising order.
pub const NUMBERS: [u16; 7] = [1021, 1022, 1023, 1024, 1025, 1026, 1027];

/// Table 3.5-24, message 1021.
#[rustfmt::skip]
const MESSAGE_1021: &[Part] = &[
    One(2),
    Name { counter: 143, character: 144 },
    Name { counter: 145, character: 146 },
    One(147), One(148), One(149), One(150), One(151),
    One(152), One(153), One(154), One(155),
    One(156), One(157), One(158),
    One(159), One(160), One(161),
    One(162),
    One(166), One(167), One(168), One(169),
    One(214), One(215),
];

/// Table 3.5-25, message 1022.
#[rustfmt::skip]
const MESSAGE_1022: &[Part] = &[
    One(2),
    Name { counter: 143, character: 144 },
    Name { counter: 145, character: 146 },
    One(147), One(148), One(149), One(150), One(151),
    One(152), One(153), One(154), One(155),
    One(156), One(157), One(158),
    One(159), One(160), One(161),
    One(162),
    One(163), One(164), One(165),
    One(166), One(167), One(168), One(169),
    One(214), One(215),
];

/// Table 3.5-26, message 1023.
#[rustfmt::skip]
const MESSAGE_1023: &[Part] = &[
    One(2), One(147),
    One(190), One(191),
    One(192), One(193), One(194), One(195),
    One(196), One(197), One(198),
    SixteenPoints([199, 200, 201]),
    One(212), One(213), One(216), One(217),
    One(51),
];

/// Table 3.5-27, message 1024.
#[rustfmt::skip]
const MESSAGE_1024: &[Part] = &[
    One(2), One(147),
    One(190), One(191),
    One(202), One(203), One(204), One(205),
    One(206), One(207), One(208),
    SixteenPoints([209, 210, 211]),
    One(212), One(213), One(216), One(217),
    One(51),
];

/// Table 3.5-28, message 1025.
#[rustfmt::skip]
const MESSAGE_1025: &[Part] = &[
    One(2), One(147), One(170),
    One(171), One(172), One(173), One(174), One(175),
];

/// Table 3.5-29, message 1026.
#[rustfmt::skip]
const MESSAGE_1026: &[Part] = &[
    One(2), One(147), One(170),
    One(176), One(177), One(178), One(179), One(180), One(181),
];

/// Table 3.5-30, message 1027.
#[rustfmt::skip]
const MESSAGE_1027: &[Part] = &[
    One(2), One(147), One(170),
    One(182),
    One(183), One(184), One(185), One(186), One(187), One(188), One(189),
];

/// The layout of a message number, if there is one.
pub fn layout(number: i64) -> Option<&'static [Part]> {
    match number {
        1021 => Some(MESSAGE_1021),
        1022 => Some(MESSAGE_1022),
        1023 => Some(MESSAGE_1023),
        1024 => Some(MESSAGE_1024),
        1025 => Some(MESSAGE_1025),
        1026 => Some(MESSAGE_1026),
        1027 => Some(MESSAGE_1027),
        _ => None,
    }
}

/// The data fields of a message with names of the given lengths, in wire order.
pub fn fields_in_order(number: u16, names: [usize; 2]) -> Vec<u16> {
    let mut lengths = names.into_iter();
    let mut order = Vec::new();
    for part in layout(number as i64).expect("a known number") {
        match *part {
            One(df) => order.push(df),
            Name { counter, character } => {
                order.push(counter);
                order.extend(vec![character; lengths.next().expect("two names")]);
            }
            SixteenPoints(three) => (0..16).for_each(|_| order.extend(three)),
        }
    }
    order
}

/// The bits of a message with empty names.
pub fn bits_without_names(number: u16) -> u32 {
    fields_in_order(number, [0, 0]).iter().map(|&df| by_df(df).width).sum()
}
