//! The refusal numbers of documents 01 and 02.

/// Why a call is refused.
#[derive(Clone, Copy, PartialEq, Eq, PartialOrd, Ord, Debug)]
pub enum Refusal {
    /// Under 2 bytes.
    Short = 1,
    /// Not 1021 to 1027.
    Number = 2,
    /// Not exactly the length called for, or a name counter cannot be read.
    Length = 3,
    /// A fill bit is set.
    Fill = 4,
    /// A field outside its range or width, a number not of the record's kind, or a bad name.
    Range = 5,
    /// Output shorter than the message.
    Room = 6,
    /// A grid call on another message, or a reader of one kind of record on another.
    Kind = 7,
    /// Not component 0 to 2.
    Component = 8,
    /// A position beyond the limits.
    Position = 9,
    /// The shift indicator of the component is 0.
    Off = 10,
    /// The interpolation method of the component is not bilinear.
    Method = 11,
    /// An origin field is not available.
    Origin = 12,
    /// A spacing is 0.
    Spacing = 13,
    /// Not inside the grid.
    Outside = 14,
    /// The mean, or a node of non-zero weight, is not available.
    Absent = 15,
    /// A key that is new to the owner, who holds 20 slots or finds no slot free.
    Full = 16,
    /// No such key, or group not 0 to 2.
    None = 17,
    /// Wrong size or not well formed, an owner with more than 20 slots included.
    Table = 18,
    /// An unfinished frame calls for bytes that have not arrived.
    Need = 19,
    /// Neither a frame nor an unfinished one.
    NoFrame = 20,
    /// An owner other than 1 or 2.
    Owner = 21,
    /// An index of a wrong size, one that does not agree with its table, or an entry that is not true to its slot.
    Index = 22,
    /// No mean fits the wanted heights.
    NoMean = 23,
    /// A file of sample answers of another shape.
    Layout = 24,
    /// A point of a file of sample answers that is refused or has another count.
    Claim = 25,
}

impl Refusal {
    /// The number of documents 01 and 02.
    pub fn number(self) -> u8 {
        self as u8
    }
}

/// The refusal number of an answer, 0 where it is done.
pub fn number_of<T>(answer: &Result<T, Refusal>) -> u8 {
    match answer {
        Ok(_) => 0,
        Err(refusal) => refusal.number(),
    }
}
