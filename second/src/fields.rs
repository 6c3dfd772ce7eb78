//! The data fields of source document 000, table 3.4-1, one line each.
//!
//! DF002 and DF051 stand only in the message tables of 000 (tables 3.5-24 to 3.5-30).

/// What a field says: a value, or that there is none (document 02, A5).
pub type Reading = Option<i64>;

/// How the bits of a field are read (000, table 3.3-1).
#[derive(Clone, Copy, PartialEq, Eq, Debug)]
pub enum Kind {
    /// bit(n): a bit field.
    Bits,
    /// char8(n): one 8 bit character of a name.
    Character,
    /// uintN: an unsigned whole number.
    Unsigned,
    /// intN: a two's complement whole number, or none where it is sent as the most negative pattern of its width.
    Signed,
}

/// Which values a field takes.
#[derive(Clone, Copy, PartialEq, Eq, Debug)]
pub enum Limits {
    /// All that the width holds, but for the "not available" pattern of a signed field.
    Width,
    /// From minus this number to this number.
    Within(i64),
    /// From 0 to this number.
    AtMost(i64),
}

/// One line of the field table.
#[derive(Debug)]
pub struct Field {
    /// The number behind "DF".
    pub df: u16,
    /// The name column of table 3.4-1.
    pub symbol: &'static str,
    /// What the field is, in the words of the message tables.
    pub name: &'static str,
    /// How the bits are read.
    pub kind: Kind,
    /// The width in bits.
    pub width: u32,
    /// Which values are taken.
    pub limits: Limits,
    /// The range column of table 3.4-1 as printed.
    pub printed_range: &'static str,
    /// The resolution column of table 3.4-1 as printed.
    pub printed_resolution: &'static str,
}

use Kind::{Bits, Character, Signed, Unsigned};
use Limits::{AtMost, Width, Within};

/// Makes one line of the field table, column by column.
#[allow(clippy::too_many_arguments)]
const fn field(
    df: u16,
    symbol: &'static str,
    name: &'static str,
    kind: Kind,
    width: u32,
    limits: Limits,
    printed_range: &'static str,
    printed_resolution: &'static str,
) -> Field {
    Field { df, symbol, name, kind, width, limits, printed_range, printed_resolution }
}

/// 90 degrees in whole steps of 0.000000011 degree.
const QUARTER_TURN: i64 = 8_181_818_181;
/// 180 degrees in whole steps of 0.000000011 degree.
const HALF_TURN: i64 = 16_363_636_363;
/// 360 degrees in whole steps of 0.000000011 degree.
const FULL_TURN: i64 = 32_727_272_727;

/// The field table, in the order of the DF numbers.
#[rustfmt::skip]
pub const FIELDS: &[Field] = &[
    field(2, "", "Message Number", Unsigned, 12, Width, "", ""),
    field(51, "", "Modified Julian Day (MJD) Number", Unsigned, 16, Width, "", ""),
    field(143, "Source-Name Counter", "Source-Name Counter", Unsigned, 5, Width, "0 – 31", ""),
    field(144, "Source-Name", "Source-Name", Character, 8, Width, "", ""),
    field(145, "Target-Name Counter", "Target-Name Counter", Unsigned, 5, Width, "0 – 31", ""),
    field(146, "Target-Name", "Target-Name", Character, 8, Width, "", ""),
    field(147, "System Identification Number", "System Identification Number", Unsigned, 8, Width, "0 – 255", ""),
    field(148, "Utilized Transformation Message Indicator", "Utilized Transformation Message Indicator", Bits, 10, Width, "", ""),
    field(149, "Plate Number", "Plate Number", Unsigned, 5, Width, "0 – 31", ""),
    field(150, "Computation Indicator", "Computation Indicator", Unsigned, 4, Width, "0 – 15", ""),
    field(151, "Height Indicator", "Height Indicator", Unsigned, 2, Width, "0 – 3", ""),
    field(152, "Φ_V", "Latitude of Origin, Area of Validity", Signed, 19, Within(162_000), "± 324000 [\"]", "2 [\"]"),
    field(153, "Λ_V", "Longitude of Origin, Area of Validity", Signed, 20, Within(324_000), "± 648000 [\"]", "2 [\"]"),
    field(154, "ΔΦ_V", "N/S Extension, Area of Validity", Unsigned, 14, Width, "0 – 32766 [\"]", "2 [\"]"),
    field(155, "ΔΛ_V", "E/W Extension, Area of Validity", Unsigned, 14, Width, "0 – 32766 [\"]", "2 [\"]"),
    field(156, "dX", "Translation in X-direction", Signed, 23, Width, "± 4194.303 m", "0.001 m"),
    field(157, "dY", "Translation in Y-direction", Signed, 23, Width, "± 4194.303 m", "0.001 m"),
    field(158, "dZ", "Translation in Z-direction", Signed, 23, Width, "± 4194.303 m", "0.001 m"),
    field(159, "R_1", "Rotation Around the X-axis", Signed, 32, Width, "± 42,949.67294 [\"]", "0.00002 [\"]"),
    field(160, "R_2", "Rotation Around the Y-axis", Signed, 32, Width, "± 42,949.67294 [\"]", "0.00002 [\"]"),
    field(161, "R_3", "Rotation Around the Z-axis", Signed, 32, Width, "± 42,949.67294 [\"]", "0.00002 [\"]"),
    field(162, "dS", "Scale Correction", Signed, 25, Width, "± 167.77215 PPM", "0.00001 PPM"),
    field(163, "X_P", "X Coordinate for M-B Rotation Point", Signed, 35, Width, "± 17,179,869.184 m", "0.001 m"),
    field(164, "Y_P", "Y Coordinate for M-B Rotation Point", Signed, 35, Width, "± 17,179,869.184 m", "0.001 m"),
    field(165, "Z_P", "Z Coordinate for M-B Rotation Point", Signed, 35, Width, "± 17,179,869.184 m", "0.001 m"),
    field(166, "add a_S", "Semi-major Axis of Source System Ellipsoid", Unsigned, 24, Width, "0 – 16,777.215", "0.001 m"),
    field(167, "add b_S", "Semi-minor Axis of Source System Ellipsoid", Unsigned, 25, Width, "0 – 33,554.431", "0.001 m"),
    field(168, "add a_T", "Semi-major Axis of Target System Ellipsoid", Unsigned, 24, Width, "0 – 16,777.215", "0.001 m"),
    field(169, "add b_T", "Semi-minor Axis of Target System Ellipsoid", Unsigned, 25, Width, "0 – 33,554.431", "0.001 m"),
    field(170, "Projection Type", "Projection Type", Unsigned, 6, Width, "0 – 63", ""),
    field(171, "LaNO", "Latitude of Natural Origin", Signed, 34, Within(QUARTER_TURN), "± 90.0000 [°]", "0.000000011 [°]"),
    field(172, "LoNO", "Longitude of Natural Origin", Signed, 35, Within(HALF_TURN), "± 180.0000 [°]", "0.000000011 [°]"),
    field(173, "add SNO", "Scale Factor at Natural Origin", Unsigned, 30, Width, "0 – 10737.41823 PPM", "0.00001 PPM"),
    field(174, "FE", "False Easting", Unsigned, 36, Width, "0 – 68,719,476.735 m", "0.001 m"),
    field(175, "FN", "False Northing", Signed, 35, Width, "± 17,179,869.183 m", "0.001 m"),
    field(176, "LaFO", "Latitude of False Origin", Signed, 34, Within(QUARTER_TURN), "± 90.0000 [°]", "0.000000011 [°]"),
    field(177, "LoFO", "Longitude of False Origin", Signed, 35, Within(HALF_TURN), "± 180.0000 [°]", "0.000000011 [°]"),
    field(178, "LaSP1", "Latitude of Standard Parallel No. 1", Signed, 34, Within(QUARTER_TURN), "± 90.0000 [°]", "0.000000011 [°]"),
    field(179, "LaSP2", "Latitude of Standard Parallel No. 2", Signed, 34, Within(QUARTER_TURN), "± 90.0000 [°]", "0.000000011 [°]"),
    field(180, "EFO", "Easting of False Origin", Unsigned, 36, Width, "0 – 68,719,476.735 m", "0.001 m"),
    field(181, "NFO", "Northing of False Origin", Signed, 35, Width, "± 17,179,869.183 m", "0.001 m"),
    field(182, "Rectification Flag", "Rectification Flag", Bits, 1, Width, "0-1", ""),
    field(183, "LaPC", "Latitude of Projection Center", Signed, 34, Within(QUARTER_TURN), "± 90.0000 [°]", "0.000000011 [°]"),
    field(184, "LoPC", "Longitude of Projection Center", Signed, 35, Within(HALF_TURN), "± 180.0000 [°]", "0.000000011 [°]"),
    field(185, "AzIL", "Azimuth of Initial Line", Unsigned, 35, AtMost(FULL_TURN), "0 – 360 [°]", "0.000000011 [°]"),
    field(186, "Diff ARSG", "Difference, Angle from Rectified to Skew Grid", Signed, 26, Width, "± 0.369098741 [°]", "0.000000011 [°]"),
    field(187, "Add SIL", "Scale factor on Initial Line", Unsigned, 30, Width, "0 – 10,737.41823 PPM", "0.00001 PPM"),
    field(188, "EPC", "Easting at Projection Center", Unsigned, 36, Width, "0 – 68,719,476.735 m", "0.001 m"),
    field(189, "NPC", "Northing at Projection Center", Signed, 35, Width, "± 17,179,869.183 m", "0.001 m"),
    field(190, "Horizontal Shift Indicator", "Horizontal Shift Indicator", Bits, 1, Width, "0-1", ""),
    field(191, "Vertical Shift Indicator", "Vertical Shift Indicator", Bits, 1, Width, "0-1", ""),
    field(192, "Φ_0", "Latitude of Origin of Grids", Signed, 21, Within(648_000), "± 324000 [\"]", "0.5 [\"]"),
    field(193, "Λ_0", "Longitude of Origin of Grids", Signed, 22, Within(1_296_000), "± 648000 [\"]", "0.5 [\"]"),
    field(194, "Δφ", "N/S Grid Area Extension", Unsigned, 12, Width, "0 – 2047.5 [\"]", "0.5 [\"]"),
    field(195, "Δλ", "E/W Grid Area Extension", Unsigned, 12, Width, "0 – 2047.5 [\"]", "0.5 [\"]"),
    field(196, "Mean Δφ", "Mean Latitude Offset", Signed, 8, Width, "± 0.127 [\"]", "0.001 [\"]"),
    field(197, "Mean Δλ", "Mean Longitude Offset", Signed, 8, Width, "± 0.127 [\"]", "0.001 [\"]"),
    field(198, "Mean ΔH", "Mean Height Offset", Signed, 15, Width, "± 163.84 m", "0.01 m"),
    field(199, "δφ_i", "Latitude Residual", Signed, 9, Width, "± 0.00765 [\"]", "0.00003 [\"]"),
    field(200, "δλ_i", "Longitude Residual", Signed, 9, Width, "± 0.00765 [\"]", "0.00003 [\"]"),
    field(201, "δh_i", "Height Residual", Signed, 9, Width, "± 0.255 m", "0.001 m"),
    field(202, "N_0", "Northing of Origin", Signed, 25, Width, "± 167,772,150 m", "10 m"),
    field(203, "E_0", "Easting of Origin", Unsigned, 26, Width, "0 – 671,088,630 m", "10 m"),
    field(204, "ΔN", "N/S Grid Area Extension", Unsigned, 12, Width, "0 – 40,950 m", "10 m"),
    field(205, "ΔE", "E/W Grid Area Extension", Unsigned, 12, Width, "0 – 40,950 m", "10 m"),
    field(206, "Mean ΔN", "Mean Local Northing Offset", Signed, 10, Width, "± 5.11 m", "0.01 m"),
    field(207, "Mean ΔE", "Mean Local Easting Offset", Signed, 10, Width, "± 5.11 m", "0.01 m"),
    field(208, "Mean Δh", "Mean Local Height Offset", Signed, 15, Width, "± 163.84 m", "0.01 m"),
    field(209, "δN_i", "Residual in Local Northing", Signed, 9, Width, "± 0.255 m", "0.001 m"),
    field(210, "δE_i", "Residual in Local Easting", Signed, 9, Width, "± 0.255 m", "0.001 m"),
    field(211, "δh_i", "Residual in Local Height", Signed, 9, Width, "± 0.255 m", "0.001 m"),
    field(212, "Horizontal Interpolation Method Indicator", "Horizontal Interpolation Method Indicator", Unsigned, 2, Width, "0-3", ""),
    field(213, "Vertical Interpolation Method Indicator", "Vertical Interpolation Method Indicator", Unsigned, 2, Width, "0-3", ""),
    field(214, "Horizontal Helmert/Molodenski Quality Indicator", "Horizontal Helmert/Molodenski Quality Indicator", Unsigned, 3, Width, "0 – 7", ""),
    field(215, "Vertical Helmert/Molodenski Quality Indicator", "Vertical Helmert/Molodenski Quality Indicator", Unsigned, 3, Width, "0 – 7", ""),
    field(216, "Horizontal Grid Quality Indicator", "Horizontal Grid Quality Indicator", Unsigned, 3, Width, "0 – 7", ""),
    field(217, "Vertical Grid Quality Indicator", "Vertical Grid Quality Indicator", Unsigned, 3, Width, "0 – 7", ""),
];

/// The table's line of a data field.
pub fn by_df(df: u16) -> &'static Field {
    FIELDS.iter().find(|f| f.df == df).expect("every layout names fields of the table")
}

impl Field {
    /// Whether the field is two's complement.
    pub fn signed(&self) -> bool {
        self.kind == Signed
    }

    /// The number by which a signed field says that it has no value, the most negative one of its width.
    pub fn not_available(&self) -> Option<i64> {
        self.signed().then(|| -(1i64 << (self.width - 1)))
    }

    /// What a number of the field's width says: a value, or none where it is the "not available" pattern.
    pub fn reading(&self, number: i64) -> Reading {
        (self.not_available() != Some(number)).then_some(number)
    }

    /// The number that is sent for a reading, or none where an unsigned field is to have no value.
    pub fn sent(&self, reading: Reading) -> Option<i64> {
        reading.or(self.not_available())
    }

    /// The least number the width holds.
    pub fn width_least(&self) -> i64 {
        if self.signed() {
            -(1i64 << (self.width - 1))
        } else {
            0
        }
    }

    /// The greatest number the width holds.
    pub fn width_greatest(&self) -> i64 {
        if self.signed() {
            (1i64 << (self.width - 1)) - 1
        } else {
            (1i64 << self.width) - 1
        }
    }

    /// The least value of the range.
    pub fn least(&self) -> i64 {
        match self.limits {
            Within(most) => -most,
            AtMost(_) => 0,
            Width if self.signed() => self.width_least() + 1,
            Width => 0,
        }
    }

    /// The greatest value of the range.
    pub fn greatest(&self) -> i64 {
        match self.limits {
            Within(most) | AtMost(most) => most,
            Width => self.width_greatest(),
        }
    }

    /// Whether the field takes a value, which the "not available" pattern never is.
    pub fn takes(&self, value: i64) -> bool {
        self.least() <= value && value <= self.greatest()
    }

    /// Whether the field can have a reading: a value that it takes, or none where it is signed.
    pub fn can_be(&self, reading: Reading) -> bool {
        reading.map_or(self.signed(), |value| self.takes(value))
    }

    /// The data type as table 3.3-1 names it.
    pub fn data_type(&self) -> String {
        match self.kind {
            Bits => format!("bit({})", self.width),
            Character => "char8".to_string(),
            Unsigned => format!("uint{}", self.width),
            Signed => format!("int{}", self.width),
        }
    }
}
