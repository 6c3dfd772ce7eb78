//! The data fields of messages 1021 to 1027, as the list at the end of include/tarnoklej.h has them.

use crate::units::{Quantity, Resolution, Unit};
use std::fmt;
use FieldType::{Bits, Character, Signed, Unsigned};

/// How a data field is sent.
#[derive(Clone, Copy, PartialEq, Eq, Hash, Debug)]
pub enum FieldType {
    /// uintN: a whole number of so many bits.
    Unsigned(u8),
    /// intN: a whole number of so many bits in two's complement, of which the most negative one says not available.
    Signed(u8),
    /// bit(N): so many bits.
    Bits(u8),
    /// char8: a character of ISO 8859-1.
    Character,
}

/// A data field of the standard: its DF number, its name, and what its numbers mean.
///
/// Values are those that are sent, in whole numbers of the resolution. To the axes of an ellipsoid (DF166 to DF169) and to scale
/// factors (DF173, DF187) the standard adds a [base](DataField::base).
///
/// ```
/// use tarnoklej::{DataField, FieldType, Unit};
///
/// let latitude = DataField::of(192).expect("a data field of 1023");
/// assert_eq!((latitude.to_string(), latitude.name), ("DF192".to_string(), "Latitude of Origin of Grids"));
/// assert_eq!((latitude.field_type, latitude.unit), (FieldType::Signed(21), Some(Unit::ArcSecond)));
/// assert_eq!((latitude.smallest, latitude.greatest), (-648_000, 648_000));
/// assert_eq!(latitude.quantity(352_801).to_string(), "176400.5\"");
/// assert_eq!(DataField::of(1), None);
/// ```
#[derive(Clone, Copy, PartialEq, Eq, Hash, Debug)]
#[non_exhaustive]
pub struct DataField {
    /// The DF number.
    pub df: u16,
    /// The name.
    pub name: &'static str,
    /// How it is sent.
    pub field_type: FieldType,
    /// What one of its whole numbers is.
    pub resolution: Resolution,
    /// The unit, or nothing for counters, indicators, characters and other plain numbers.
    pub unit: Option<Unit>,
    /// The smallest value.
    pub smallest: i64,
    /// The greatest value.
    pub greatest: i64,
    /// What the standard adds to the number that is sent, in whole units, 0 where it adds nothing. An axis of which 0 is sent is
    /// undefined.
    pub base: i64,
}

impl FieldType {
    /// The bits of a field.
    pub const fn bits(self) -> u8 {
        match self {
            Unsigned(bits) | Signed(bits) | Bits(bits) => bits,
            Character => 8,
        }
    }
}

impl fmt::Display for FieldType {
    /// The type as the standard writes it.
    fn fmt(&self, f: &mut fmt::Formatter) -> fmt::Result {
        match self {
            Unsigned(bits) => write!(f, "uint{bits}"),
            Signed(bits) => write!(f, "int{bits}"),
            Bits(bits) => write!(f, "bit({bits})"),
            Character => write!(f, "char8"),
        }
    }
}

impl DataField {
    /// All data fields in the order of their numbers.
    pub fn all() -> &'static [DataField] {
        &FIELDS
    }

    /// The data field of a DF number, or nothing where messages 1021 to 1027 have none of it.
    pub fn of(df: u16) -> Option<&'static DataField> {
        FIELDS.binary_search_by_key(&df, |field| field.df).ok().map(|place| &FIELDS[place])
    }

    /// Whether the field can say that it is not available.
    pub const fn can_be_absent(&self) -> bool {
        matches!(self.field_type, Signed(_))
    }

    /// A value of the field with resolution and unit.
    pub const fn quantity(&self, value: i64) -> Quantity {
        Quantity { count: value, resolution: self.resolution, unit: self.unit }
    }

    /// A value of the field with the base added to it.
    ///
    /// ```
    /// use tarnoklej::DataField;
    ///
    /// let axis = DataField::of(166).expect("the semi-major axis of the source system");
    /// assert_eq!(axis.quantity(8_137_000).to_string(), "8137.000 m");
    /// assert_eq!(axis.quantity_with_base(8_137_000).to_string(), "6378137.000 m");
    /// ```
    pub const fn quantity_with_base(&self, value: i64) -> Quantity {
        let steps_in_one = 10i64.pow(self.resolution.decimals as u32) / self.resolution.step as i64;
        self.quantity(self.base.saturating_mul(steps_in_one).saturating_add(value))
    }

    /// The field with a base.
    const fn above(self, base: i64) -> Self {
        DataField { base, ..self }
    }

    /// The field with a range that ends before its width does.
    const fn at_most(self, greatest: i64) -> Self {
        let smallest = if self.smallest < 0 { -greatest } else { 0 };
        DataField { smallest, greatest, ..self }
    }
}

impl fmt::Display for DataField {
    /// DF and the number in three digits.
    fn fmt(&self, f: &mut fmt::Formatter) -> fmt::Result {
        f.pad(&format!("DF{:03}", self.df))
    }
}

/// The resolution and unit of a plain number.
const PLAIN: (Resolution, Option<Unit>) = (Resolution::ONE, None);

/// The resolution and unit of a number in steps.
const fn of(step: u8, decimals: u8, unit: Unit) -> (Resolution, Option<Unit>) {
    (Resolution { step, decimals }, Some(unit))
}

/// A data field whose range is all of its width.
const fn field(
    df: u16,
    name: &'static str,
    field_type: FieldType,
    (resolution, unit): (Resolution, Option<Unit>),
) -> DataField {
    let (smallest, greatest) = match field_type {
        Signed(bits) => (1 - (1 << (bits - 1)), (1 << (bits - 1)) - 1),
        other => (0, (1 << other.bits()) - 1),
    };
    DataField { df, name, field_type, resolution, unit, smallest, greatest, base: 0 }
}

/// The data fields in the order of their numbers.
static FIELDS: [DataField; 77] = [
    field(2, "Message Number", Unsigned(12), PLAIN),
    field(51, "Modified Julian Day (MJD) Number", Unsigned(16), PLAIN),
    field(143, "Source-Name Counter", Unsigned(5), PLAIN),
    field(144, "Source-Name", Character, PLAIN),
    field(145, "Target-Name Counter", Unsigned(5), PLAIN),
    field(146, "Target-Name", Character, PLAIN),
    field(147, "System Identification Number", Unsigned(8), PLAIN),
    field(148, "Utilized Transformation Message Indicator", Bits(10), PLAIN),
    field(149, "Plate Number", Unsigned(5), PLAIN),
    field(150, "Computation Indicator", Unsigned(4), PLAIN),
    field(151, "Height Indicator", Unsigned(2), PLAIN),
    field(152, "Latitude of Origin, Area of Validity", Signed(19), of(2, 0, Unit::ArcSecond)).at_most(162_000),
    field(153, "Longitude of Origin, Area of Validity", Signed(20), of(2, 0, Unit::ArcSecond)).at_most(324_000),
    field(154, "N/S Extension, Area of Validity", Unsigned(14), of(2, 0, Unit::ArcSecond)),
    field(155, "E/W Extension, Area of Validity", Unsigned(14), of(2, 0, Unit::ArcSecond)),
    field(156, "Translation in X-direction", Signed(23), of(1, 3, Unit::Metre)),
    field(157, "Translation in Y-direction", Signed(23), of(1, 3, Unit::Metre)),
    field(158, "Translation in Z-direction", Signed(23), of(1, 3, Unit::Metre)),
    field(159, "Rotation Around the X-axis", Signed(32), of(2, 5, Unit::ArcSecond)),
    field(160, "Rotation Around the Y-axis", Signed(32), of(2, 5, Unit::ArcSecond)),
    field(161, "Rotation Around the Z-axis", Signed(32), of(2, 5, Unit::ArcSecond)),
    field(162, "Scale Correction", Signed(25), of(1, 5, Unit::PartPerMillion)),
    field(163, "X Coordinate for M-B Rotation Point", Signed(35), of(1, 3, Unit::Metre)),
    field(164, "Y Coordinate for M-B Rotation Point", Signed(35), of(1, 3, Unit::Metre)),
    field(165, "Z Coordinate for M-B Rotation Point", Signed(35), of(1, 3, Unit::Metre)),
    field(166, "Semi-major Axis of Source System Ellipsoid", Unsigned(24), of(1, 3, Unit::Metre)).above(6_370_000),
    field(167, "Semi-minor Axis of Source System Ellipsoid", Unsigned(25), of(1, 3, Unit::Metre)).above(6_350_000),
    field(168, "Semi-major Axis of Target System Ellipsoid", Unsigned(24), of(1, 3, Unit::Metre)).above(6_370_000),
    field(169, "Semi-minor Axis of Target System Ellipsoid", Unsigned(25), of(1, 3, Unit::Metre)).above(6_350_000),
    field(170, "Projection Type", Unsigned(6), PLAIN),
    field(171, "Latitude of Natural Origin", Signed(34), of(11, 9, Unit::Degree)).at_most(8_181_818_181),
    field(172, "Longitude of Natural Origin", Signed(35), of(11, 9, Unit::Degree)).at_most(16_363_636_363),
    field(173, "Scale Factor at Natural Origin", Unsigned(30), of(1, 5, Unit::PartPerMillion)).above(993_000),
    field(174, "False Easting", Unsigned(36), of(1, 3, Unit::Metre)),
    field(175, "False Northing", Signed(35), of(1, 3, Unit::Metre)),
    field(176, "Latitude of False Origin", Signed(34), of(11, 9, Unit::Degree)).at_most(8_181_818_181),
    field(177, "Longitude of False Origin", Signed(35), of(11, 9, Unit::Degree)).at_most(16_363_636_363),
    field(178, "Latitude of Standard Parallel No. 1", Signed(34), of(11, 9, Unit::Degree)).at_most(8_181_818_181),
    field(179, "Latitude of Standard Parallel No. 2", Signed(34), of(11, 9, Unit::Degree)).at_most(8_181_818_181),
    field(180, "Easting of False Origin", Unsigned(36), of(1, 3, Unit::Metre)),
    field(181, "Northing of False Origin", Signed(35), of(1, 3, Unit::Metre)),
    field(182, "Rectification Flag", Bits(1), PLAIN),
    field(183, "Latitude of Projection Center", Signed(34), of(11, 9, Unit::Degree)).at_most(8_181_818_181),
    field(184, "Longitude of Projection Center", Signed(35), of(11, 9, Unit::Degree)).at_most(16_363_636_363),
    field(185, "Azimuth of Initial Line", Unsigned(35), of(11, 9, Unit::Degree)).at_most(32_727_272_727),
    field(186, "Difference, Angle from Rectified to Skew Grid", Signed(26), of(11, 9, Unit::Degree)),
    field(187, "Scale factor on Initial Line", Unsigned(30), of(1, 5, Unit::PartPerMillion)).above(993_000),
    field(188, "Easting at Projection Center", Unsigned(36), of(1, 3, Unit::Metre)),
    field(189, "Northing at Projection Center", Signed(35), of(1, 3, Unit::Metre)),
    field(190, "Horizontal Shift Indicator", Bits(1), PLAIN),
    field(191, "Vertical Shift Indicator", Bits(1), PLAIN),
    field(192, "Latitude of Origin of Grids", Signed(21), of(5, 1, Unit::ArcSecond)).at_most(648_000),
    field(193, "Longitude of Origin of Grids", Signed(22), of(5, 1, Unit::ArcSecond)).at_most(1_296_000),
    field(194, "N/S Grid Area Extension", Unsigned(12), of(5, 1, Unit::ArcSecond)),
    field(195, "E/W Grid Area Extension", Unsigned(12), of(5, 1, Unit::ArcSecond)),
    field(196, "Mean Latitude Offset", Signed(8), of(1, 3, Unit::ArcSecond)),
    field(197, "Mean Longitude Offset", Signed(8), of(1, 3, Unit::ArcSecond)),
    field(198, "Mean Height Offset", Signed(15), of(1, 2, Unit::Metre)),
    field(199, "Latitude Residual", Signed(9), of(3, 5, Unit::ArcSecond)),
    field(200, "Longitude Residual", Signed(9), of(3, 5, Unit::ArcSecond)),
    field(201, "Height Residual", Signed(9), of(1, 3, Unit::Metre)),
    field(202, "Northing of Origin", Signed(25), of(10, 0, Unit::Metre)),
    field(203, "Easting of Origin", Unsigned(26), of(10, 0, Unit::Metre)),
    field(204, "N/S Grid Area Extension", Unsigned(12), of(10, 0, Unit::Metre)),
    field(205, "E/W Grid Area Extension", Unsigned(12), of(10, 0, Unit::Metre)),
    field(206, "Mean Local Northing Offset", Signed(10), of(1, 2, Unit::Metre)),
    field(207, "Mean Local Easting Offset", Signed(10), of(1, 2, Unit::Metre)),
    field(208, "Mean Local Height Offset", Signed(15), of(1, 2, Unit::Metre)),
    field(209, "Residual in Local Northing", Signed(9), of(1, 3, Unit::Metre)),
    field(210, "Residual in Local Easting", Signed(9), of(1, 3, Unit::Metre)),
    field(211, "Residual in Local Height", Signed(9), of(1, 3, Unit::Metre)),
    field(212, "Horizontal Interpolation Method Indicator", Unsigned(2), PLAIN),
    field(213, "Vertical Interpolation Method Indicator", Unsigned(2), PLAIN),
    field(214, "Horizontal Helmert/Molodenski Quality Indicator", Unsigned(3), PLAIN),
    field(215, "Vertical Helmert/Molodenski Quality Indicator", Unsigned(3), PLAIN),
    field(216, "Horizontal Grid Quality Indicator", Unsigned(3), PLAIN),
    field(217, "Vertical Grid Quality Indicator", Unsigned(3), PLAIN),
];
