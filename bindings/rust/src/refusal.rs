//! The refusals: why a call did not do what it was asked for.

use std::fmt;

/// Why a call was refused, with the number, the name and the words of include/tarnoklej.h.
///
/// ```
/// use tarnoklej::Refusal;
///
/// let refusal = Refusal::Outside;
/// assert_eq!((refusal.number(), refusal.name()), (14, "OUTSIDE"));
/// assert_eq!(refusal.to_string(), "OUTSIDE (14): the position is not on or within the grid's outer rectangle");
/// assert_eq!(Refusal::from_number(14), Some(refusal));
/// assert_eq!(Refusal::from_number(0), None);
/// ```
#[derive(Clone, Copy, PartialEq, Eq, PartialOrd, Ord, Hash, Debug)]
#[repr(u8)]
pub enum Refusal {
    /// The message has under 2 bytes.
    Short = 1,
    /// The message is not one of 1021 to 1027.
    Number = 2,
    /// The message has another length than it calls for, a name counter cannot be read, or it is too long for a frame; a
    /// report or a file of sample answers has too many points.
    Length = 3,
    /// A fill bit of the message is set.
    Fill = 4,
    /// A field is outside its range or width, or the fields are no row of a message.
    Range = 5,
    /// The output is too short for what is to be written.
    Room = 6,
    /// A grid call got a message other than 1023 or 1024, or a datum step one other than 1021.
    Kind = 7,
    /// A component is not 0 to 2; see [`Component`](crate::Component).
    Component = 8,
    /// A position is beyond the limits, or a row of shifts has no place, too many, or a negative step.
    Position = 9,
    /// The shift indicator of the component is 0: DF190 of north-south and east-west, DF191 of the height.
    Off = 10,
    /// The interpolation method of the component is not 0 (DF212, DF213), or the computation indicator of a datum step is
    /// not (DF150).
    Method = 11,
    /// An origin field of the grid has no value.
    Origin = 12,
    /// A spacing of the grid is 0.
    Spacing = 13,
    /// The position is not on or within the grid's outer rectangle.
    Outside = 14,
    /// The mean, or a node of non-zero weight, or a parameter of a datum step has no value.
    Absent = 15,
    /// The key is new to the owner, who holds 20 slots or finds no slot free.
    Full = 16,
    /// The owner has no message of the key.
    None = 17,
    /// The table has a wrong size or is not well formed.
    Table = 18,
    /// An unfinished frame calls for bytes that have not arrived.
    Need = 19,
    /// There is neither a frame nor an unfinished one.
    NoFrame = 20,
    /// An owner is not 1 or 2; see [`Owner`](crate::Owner).
    Owner = 21,
    /// The index has a wrong size or does not agree with the table.
    Index = 22,
    /// There is no mean from which every wanted height is at most 255 mm away.
    NoMean = 23,
    /// A file of sample answers has another shape.
    Layout = 24,
    /// A point of a file of sample answers is refused, or has another count than it claims.
    Claim = 25,
}

impl Refusal {
    /// All refusals in the order of their numbers, which are 1 to 25.
    pub const ALL: [Refusal; 25] = [
        Refusal::Short,
        Refusal::Number,
        Refusal::Length,
        Refusal::Fill,
        Refusal::Range,
        Refusal::Room,
        Refusal::Kind,
        Refusal::Component,
        Refusal::Position,
        Refusal::Off,
        Refusal::Method,
        Refusal::Origin,
        Refusal::Spacing,
        Refusal::Outside,
        Refusal::Absent,
        Refusal::Full,
        Refusal::None,
        Refusal::Table,
        Refusal::Need,
        Refusal::NoFrame,
        Refusal::Owner,
        Refusal::Index,
        Refusal::NoMean,
        Refusal::Layout,
        Refusal::Claim,
    ];

    /// The refusal of a number, or nothing for 0, which is done, and for a number that no call gives.
    pub fn from_number(number: u8) -> Option<Refusal> {
        usize::from(number).checked_sub(1).and_then(|place| Refusal::ALL.get(place).copied())
    }

    /// The refusal's number.
    pub const fn number(self) -> u8 {
        self as u8
    }

    /// The refusal's name in the header, without `TARNOKLEJ_`.
    pub const fn name(self) -> &'static str {
        match self {
            Refusal::Short => "SHORT",
            Refusal::Number => "NUMBER",
            Refusal::Length => "LENGTH",
            Refusal::Fill => "FILL",
            Refusal::Range => "RANGE",
            Refusal::Room => "ROOM",
            Refusal::Kind => "KIND",
            Refusal::Component => "COMPONENT",
            Refusal::Position => "POSITION",
            Refusal::Off => "OFF",
            Refusal::Method => "METHOD",
            Refusal::Origin => "ORIGIN",
            Refusal::Spacing => "SPACING",
            Refusal::Outside => "OUTSIDE",
            Refusal::Absent => "ABSENT",
            Refusal::Full => "FULL",
            Refusal::None => "NONE",
            Refusal::Table => "TABLE",
            Refusal::Need => "NEED",
            Refusal::NoFrame => "NOFRAME",
            Refusal::Owner => "OWNER",
            Refusal::Index => "INDEX",
            Refusal::NoMean => "NOMEAN",
            Refusal::Layout => "LAYOUT",
            Refusal::Claim => "CLAIM",
        }
    }

    /// What the refusal means, in the header's words.
    pub const fn words(self) -> &'static str {
        match self {
            Refusal::Short => "a message of under 2 bytes",
            Refusal::Number => "a message number that is not 1021 to 1027",
            Refusal::Length => {
                "not the length called for, a name counter that cannot be read, or too long for a frame; points of a report or \
                 of sample answers that are too many, or whose counts differ"
            }
            Refusal::Fill => "a fill bit is set",
            Refusal::Range => "a field outside its range or width, or buffers that are no row of a message",
            Refusal::Room => {
                "an output shorter than the message, its row or its frame, than a row of shifts, or than a file of sample \
                 answers"
            }
            Refusal::Kind => "a grid call on a message other than 1023 or 1024, a datum step on another than 1021",
            Refusal::Component => "a component that is not 0 to 2",
            Refusal::Position => {
                "1023: a position beyond +-3,240,000,000 or +-6,480,000,000; 1024: either beyond +-10^12; a row of shifts of no place \
                 or too many, or with a negative step; datum step: one of three beyond +-10^11"
            }
            Refusal::Off => "DF190 is 0 (components 0, 1) or DF191 is 0 (component 2)",
            Refusal::Method => {
                "DF212 (components 0, 1) or DF213 (component 2) is not 0; datum step: DF150 is not 0"
            }
            Refusal::Origin => "an origin field has no value",
            Refusal::Spacing => "a spacing is 0",
            Refusal::Outside => "the position is not on or within the grid's outer rectangle",
            Refusal::Absent => "the mean, or a node of non-zero weight, or one of DF156 to DF162 has no value",
            Refusal::Full => "the key is new to the owner, who holds 20 slots or finds no slot free",
            Refusal::None => "no such key of the owner, or group not 0 to 2",
            Refusal::Table => "the table has a wrong size or is not well formed, see tarnoklej_index_agrees",
            Refusal::Need => "an unfinished frame calls for bytes that have not arrived",
            Refusal::NoFrame => "neither a frame nor an unfinished one, or a start past the end",
            Refusal::Owner => "an owner other than 1 or 2",
            Refusal::Index => "the index has a wrong size or does not agree with the table",
            Refusal::NoMean => "no mean from which every wanted height is at most 255 mm away",
            Refusal::Layout => "a file of sample answers of another shape",
            Refusal::Claim => "a point of a file of sample answers that is refused, or has another count",
        }
    }

    /// Nothing where a refusal number of the library is 0, else the refusal.
    pub(crate) fn unless_done(number: u8) -> Result<(), Refusal> {
        match number {
            0 => Ok(()),
            _ => Err(Refusal::from_number(number).expect("the library gives 0 or a refusal's number")),
        }
    }
}

impl fmt::Display for Refusal {
    /// Name, number and words.
    fn fmt(&self, f: &mut fmt::Formatter) -> fmt::Result {
        write!(f, "{} ({}): {}", self.name(), self.number(), self.words())
    }
}

impl std::error::Error for Refusal {}
