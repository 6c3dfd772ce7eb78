//! The table of fields and the table of messages, which the command and the page share.

use crate::csv;
use crate::decimal::Decimal;

const FIELDS: &str = include_str!("../fields.csv");
const MESSAGES: &str = include_str!("../messages.csv");

/// How a field's bits are read.
#[derive(Clone, Copy, PartialEq, Eq, Debug)]
pub enum Kind {
    /// bit(n) and uintN.
    Unsigned,
    /// intN: the most negative number means that the field is not available.
    Signed,
    /// char8, as many as the counter before says.
    Name,
}

/// A line of the table of fields.
#[derive(Debug)]
pub struct Field {
    /// As `DF152`.
    pub df: String,
    pub name: String,
    pub kind: Kind,
    /// Bits, of one character of a name.
    pub width: usize,
    pub resolution: Decimal,
    /// The unit, or nothing.
    pub unit: Option<String>,
    pub smallest: i64,
    pub greatest: i64,
    /// The constant that the value is added to.
    pub base: Option<i64>,
    /// First, last, and what they mean.
    pub codes: Vec<(i64, i64, String)>,
    /// What each bit means, Bit(1) first.
    pub bits: Vec<String>,
}

impl Field {
    /// What a code means.
    pub fn code(&self, raw: i64) -> Option<&str> {
        self.codes.iter().find(|code| code.0 <= raw && raw <= code.1).map(|code| code.2.as_str())
    }

    /// Whether values are angles that are shown in degrees, minutes and seconds too.
    pub fn is_angle(&self) -> bool {
        self.unit.as_deref() == Some("arc second")
            && 2 * self.resolution.units >= crate::decimal::ten_to(self.resolution.decimals)
    }
}

/// A place in a message's layout.
#[derive(Clone, Debug)]
pub struct Slot {
    /// The place of its field in the table.
    pub field: usize,
    /// The node of a grid.
    pub node: Option<usize>,
}

/// A line of the table of messages: one number, or numbers from first to last.
#[derive(Debug)]
pub struct Message {
    pub first: u16,
    pub last: u16,
    pub name: String,
    /// The fields in wire order, none where the message is not read.
    pub slots: Vec<Slot>,
}

/// Both tables.
pub struct Tables {
    pub fields: Vec<Field>,
    pub messages: Vec<Message>,
}

impl Tables {
    /// The tables that are built in.
    pub fn new() -> Tables {
        let fields: Vec<Field> =
            FIELDS.lines().skip(1).map(|line| field(line).expect("a line of fields.csv")).collect();
        let messages = MESSAGES.lines().skip(1);
        let messages = messages.map(|line| message(line, &fields).expect("a line of messages.csv")).collect();
        Tables { fields, messages }
    }

    /// The line of a message number.
    pub fn message(&self, number: u16) -> Option<&Message> {
        self.messages.iter().find(|message| message.first <= number && number <= message.last)
    }
}

/// The kind and width of a data type.
fn kind_of(data_type: &str) -> Option<(Kind, usize)> {
    let (kind, width) = match data_type {
        "char8" => (Kind::Name, "8"),
        _ if data_type.starts_with("bit(") => (Kind::Unsigned, data_type[4..].trim_end_matches(')')),
        _ if data_type.starts_with("uint") => (Kind::Unsigned, &data_type[4..]),
        _ => (Kind::Signed, data_type.strip_prefix("int")?),
    };
    Some((kind, width.parse().ok()?))
}

/// A line of the table of fields.
fn field(line: &str) -> Option<Field> {
    let cells = csv::cells(line);
    let [df, name, data_type, resolution, unit, smallest, greatest, base, codes, bits] = &cells[..] else {
        return None;
    };
    let (kind, width) = kind_of(data_type)?;
    Some(Field {
        df: df.clone(),
        name: name.clone(),
        kind,
        width,
        resolution: Decimal::parse(resolution)?,
        unit: (!unit.is_empty()).then(|| unit.clone()),
        smallest: smallest.parse().ok()?,
        greatest: greatest.parse().ok()?,
        base: if base.is_empty() { None } else { Some(base.parse().ok()?) },
        codes: csv::entries(codes)?,
        bits: csv::entries(bits)?.into_iter().map(|bit| bit.2).collect(),
    })
}

/// A line of the table of messages.
fn message(line: &str, fields: &[Field]) -> Option<Message> {
    let cells = csv::cells(line);
    let [numbers, name, order] = &cells[..] else { return None };
    let (first, last) = numbers.split_once('-').unwrap_or((numbers, numbers));
    let slots = slots(order, fields)?;
    Some(Message { first: first.parse().ok()?, last: last.parse().ok()?, name: name.clone(), slots })
}

/// The slots of fields in wire order, of which those in `16*(..)` stand once for each node.
fn slots(order: &str, fields: &[Field]) -> Option<Vec<Slot>> {
    let place = |df: &str| fields.iter().position(|field| field.df == df);
    let one = |df, node| Some(Slot { field: place(df)?, node });
    let Some((before, rest)) = order.split_once("16*(") else {
        return order.split_whitespace().map(|df| one(df, None)).collect();
    };
    let (nodes, behind) = rest.split_once(')')?;
    let mut slots: Vec<Slot> = before.split_whitespace().map(|df| one(df, None)).collect::<Option<_>>()?;
    for node in 1..=16 {
        for df in nodes.split_whitespace() {
            slots.push(one(df, Some(node))?);
        }
    }
    slots.extend(behind.split_whitespace().map(|df| one(df, None)).collect::<Option<Vec<_>>>()?);
    Some(slots)
}
