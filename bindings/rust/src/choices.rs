//! What a caller chooses from: components of a shift, owners of a table, groups of messages.

use crate::Refusal;
use std::fmt;

/// A component of a shift.
#[derive(Clone, Copy, PartialEq, Eq, PartialOrd, Ord, Hash, Debug)]
#[repr(u8)]
pub enum Component {
    /// North-south, in counts of 0.00001 arc second (1023) or 0.1 mm (1024).
    NorthSouth = 0,
    /// East-west, in counts of 0.00001 arc second (1023) or 0.1 mm (1024).
    EastWest = 1,
    /// Height, in counts of 0.1 mm.
    Height = 2,
}

/// One of the two owners that share a table.
#[derive(Clone, Copy, PartialEq, Eq, PartialOrd, Ord, Hash, Debug)]
#[repr(u8)]
pub enum Owner {
    /// Owner 1.
    One = 1,
    /// Owner 2.
    Two = 2,
}

/// A group of messages: of each, an owner keeps one for a system identification number.
#[derive(Clone, Copy, PartialEq, Eq, PartialOrd, Ord, Hash, Debug)]
#[repr(u8)]
pub enum Group {
    /// Messages 1021 and 1022.
    Transformation = 0,
    /// Messages 1023 and 1024.
    Grid = 1,
    /// Messages 1025, 1026 and 1027.
    Projection = 2,
}

impl Component {
    /// All components in the order of their numbers.
    pub const ALL: [Component; 3] = [Component::NorthSouth, Component::EastWest, Component::Height];

    /// The component's number in the header and in a file of sample answers.
    pub const fn number(self) -> u8 {
        self as u8
    }

    /// The component's name in plain words.
    pub const fn name(self) -> &'static str {
        match self {
            Component::NorthSouth => "north-south",
            Component::EastWest => "east-west",
            Component::Height => "height",
        }
    }
}

impl Owner {
    /// Both owners.
    pub const ALL: [Owner; 2] = [Owner::One, Owner::Two];

    /// The owner's number in the header and in a table.
    pub const fn number(self) -> u8 {
        self as u8
    }

    /// The other owner.
    pub const fn other(self) -> Owner {
        match self {
            Owner::One => Owner::Two,
            Owner::Two => Owner::One,
        }
    }
}

impl Group {
    /// All groups in the order of their numbers.
    pub const ALL: [Group; 3] = [Group::Transformation, Group::Grid, Group::Projection];

    /// The group's number in the header and in an index.
    pub const fn number(self) -> u8 {
        self as u8
    }

    /// The group's name in plain words.
    pub const fn name(self) -> &'static str {
        match self {
            Group::Transformation => "transformation",
            Group::Grid => "grid",
            Group::Projection => "projection",
        }
    }

    /// The group of a message number, or nothing for one that is not 1021 to 1027.
    pub const fn of_message(number: u16) -> Option<Group> {
        match number {
            1021 | 1022 => Some(Group::Transformation),
            1023 | 1024 => Some(Group::Grid),
            1025..=1027 => Some(Group::Projection),
            _ => None,
        }
    }
}

impl TryFrom<u8> for Component {
    type Error = Refusal;

    /// The component of a number, refused as COMPONENT as every call refuses another.
    fn try_from(number: u8) -> Result<Self, Refusal> {
        Component::ALL.get(usize::from(number)).copied().ok_or(Refusal::Component)
    }
}

impl TryFrom<u8> for Owner {
    type Error = Refusal;

    /// The owner of a number, refused as OWNER as every call refuses another.
    fn try_from(number: u8) -> Result<Self, Refusal> {
        Owner::ALL.into_iter().find(|owner| owner.number() == number).ok_or(Refusal::Owner)
    }
}

impl TryFrom<u8> for Group {
    type Error = Refusal;

    /// The group of a number, refused as NONE as every call refuses another.
    fn try_from(number: u8) -> Result<Self, Refusal> {
        Group::ALL.get(usize::from(number)).copied().ok_or(Refusal::None)
    }
}

impl fmt::Display for Component {
    /// The component's name.
    fn fmt(&self, f: &mut fmt::Formatter) -> fmt::Result {
        f.pad(self.name())
    }
}

impl fmt::Display for Owner {
    /// The owner's number.
    fn fmt(&self, f: &mut fmt::Formatter) -> fmt::Result {
        self.number().fmt(f)
    }
}

impl fmt::Display for Group {
    /// The group's name.
    fn fmt(&self, f: &mut fmt::Formatter) -> fmt::Result {
        f.pad(self.name())
    }
}
