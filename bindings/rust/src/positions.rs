//! Positions: in the plane or on the ellipsoid for a grid, and geocentric for a datum step.

/// A position for a grid message, in steps: of 0.0001 arc second for a 1023, of 1 mm for a 1024, north and east positive.
///
/// It is given in the system of the grid: for a 1023 after the transformation of 1021 or 1022, for a 1024 after the
/// projection. No call can tell in which system a position was given.
#[derive(Clone, Copy, PartialEq, Eq, PartialOrd, Ord, Hash, Debug, Default)]
pub struct Position {
    /// Latitude or northing, in steps.
    pub north: i64,
    /// Longitude or easting, in steps.
    pub east: i64,
}

/// A geocentric position for a datum step, in units of 0.1 mm.
#[derive(Clone, Copy, PartialEq, Eq, PartialOrd, Ord, Hash, Debug, Default)]
pub struct Geocentric {
    /// The X coordinate.
    pub x: i64,
    /// The Y coordinate.
    pub y: i64,
    /// The Z coordinate.
    pub z: i64,
}

impl Position {
    /// The steps of a degree, for a 1023.
    pub const STEPS_PER_DEGREE: i64 = 36_000_000;
    /// The steps of a metre, for a 1024.
    pub const STEPS_PER_METRE: i64 = 1_000;

    /// A position of so many steps.
    pub const fn new(north: i64, east: i64) -> Self {
        Position { north, east }
    }

    /// The position for a 1023 nearest to a latitude and a longitude in degrees.
    ///
    /// A number that is not finite gives a position that every call refuses as POSITION.
    ///
    /// ```
    /// use tarnoklej::Position;
    ///
    /// assert_eq!(Position::from_degrees(49.0, -11.5), Position::new(1_764_000_000, -414_000_000));
    /// ```
    pub fn from_degrees(north: f64, east: f64) -> Self {
        let steps = |degrees| nearest(degrees, Position::STEPS_PER_DEGREE);
        Position { north: steps(north), east: steps(east) }
    }

    /// The position for a 1024 nearest to a northing and an easting in metres.
    ///
    /// A number that is not finite gives a position that every call refuses as POSITION.
    ///
    /// ```
    /// use tarnoklej::Position;
    ///
    /// assert_eq!(Position::from_metres(5_428_000.25, 4_500_000.0), Position::new(5_428_000_250, 4_500_000_000));
    /// ```
    pub fn from_metres(north: f64, east: f64) -> Self {
        let steps = |metres| nearest(metres, Position::STEPS_PER_METRE);
        Position { north: steps(north), east: steps(east) }
    }
}

impl Geocentric {
    /// The units of a metre.
    pub const UNITS_PER_METRE: i64 = 10_000;

    /// A position of so many units.
    pub const fn new(x: i64, y: i64, z: i64) -> Self {
        Geocentric { x, y, z }
    }

    /// The position nearest to coordinates in metres.
    ///
    /// A number that is not finite gives a position that a datum step refuses as POSITION.
    ///
    /// ```
    /// use tarnoklej::Geocentric;
    ///
    /// let position = Geocentric::from_metres(4_149_871.2345, 798_541.2345, 4_789_325.6789);
    /// assert_eq!(position, Geocentric::new(41_498_712_345, 7_985_412_345, 47_893_256_789));
    /// assert_eq!(position.metres(), [4_149_871.2345, 798_541.2345, 4_789_325.6789]);
    /// ```
    pub fn from_metres(x: f64, y: f64, z: f64) -> Self {
        let units = |metres| nearest(metres, Geocentric::UNITS_PER_METRE);
        Geocentric { x: units(x), y: units(y), z: units(z) }
    }

    /// The coordinates x, y and z in metres.
    pub fn metres(self) -> [f64; 3] {
        [self.x, self.y, self.z].map(|units| units as f64 / Geocentric::UNITS_PER_METRE as f64)
    }
}

/// The whole number nearest to a number of steps, or one beyond every limit where there is none.
fn nearest(number: f64, steps: i64) -> i64 {
    let whole = (number * steps as f64).round();
    if whole.is_finite() {
        whole as i64
    } else {
        i64::MAX
    }
}
