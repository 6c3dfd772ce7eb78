//! Messages with their fields by DF number.

use crate::fields::{DataField, FieldType};
use crate::layouts::{places, NODES};
use crate::{read_fields, write_fields, Group, Quantity, Refusal};
use std::fmt;

/// The DF number of the system identification number.
const SIN: u16 = 147;
/// The DF numbers of a counter and of the characters it counts, for source name and target name.
const NAMES: [(u16, u16); 2] = [(143, 144), (145, 146)];
/// The characters of a name at most.
const MOST_CHARACTERS: usize = 31;

/// A message 1021 to 1027 as its fields, in wire order.
///
/// One that was [read](Message::read) holds what the message said. One that was [made](Message::new) or changed may hold any
/// numbers; [`Message::write`] tells whether it is a message.
///
/// ```
/// use tarnoklej::{example, Message, Refusal};
///
/// let grid = Message::read(&example::grid_k())?;
/// assert_eq!((grid.number(), grid.sin()), (1023, Some(7)));
/// let origin = grid.field(192).expect("every 1023 has one");
/// assert_eq!(origin.to_string(), "DF192 Latitude of Origin of Grids: 176400.0\"");
/// let at_node_6 = grid.node_field(201, 6).expect("every 1023 has one");
/// assert_eq!(at_node_6.to_string(), "DF201 Height Residual, node 6: 0.006 m");
///
/// // The same grid without the height of node 6.
/// let mut other = grid.clone();
/// other.set_node(201, 6, None)?;
/// let bytes = other.write()?;
/// assert_eq!(Message::read(&bytes)?.value_at_node(201, 6), None);
/// assert_eq!(other.node_field(201, 6).expect("still there").to_string(), "DF201 Height Residual, node 6: not available");
/// # Ok::<(), Refusal>(())
/// ```
#[derive(Clone, PartialEq, Eq, Hash, Debug)]
pub struct Message {
    number: u16,
    fields: Vec<Field>,
}

/// A field of a message.
#[derive(Clone, Copy, PartialEq, Eq, Hash, Debug)]
#[non_exhaustive]
pub struct Field {
    /// Which data field it is.
    pub data_field: &'static DataField,
    /// The number of its node, from 1 to [`NODES`], for a field of a node.
    pub node: Option<u8>,
    /// The value as it is sent, in whole numbers of the resolution, or nothing where it is not available.
    pub value: Option<i64>,
}

impl Field {
    /// The DF number.
    pub fn df(&self) -> u16 {
        self.data_field.df
    }

    /// The value as it is sent, with resolution and unit, or nothing where it is not available.
    pub fn quantity(&self) -> Option<Quantity> {
        self.value.map(|value| self.data_field.quantity(value))
    }
}

impl fmt::Display for Field {
    /// DF number, name, node and value, to which a base is added where there is one.
    fn fmt(&self, f: &mut fmt::Formatter) -> fmt::Result {
        write!(f, "{} {}", self.data_field, self.data_field.name)?;
        if let Some(node) = self.node {
            write!(f, ", node {node}")?;
        }
        match (self.value, self.data_field.base) {
            (None, _) => write!(f, ": not available"),
            (Some(value), 0) if self.data_field.field_type == FieldType::Character => {
                write!(f, ": {value}")?;
                u8::try_from(value).map_or(Ok(()), |byte| write!(f, " {:?}", char::from(byte)))
            }
            (Some(value), 0) => write!(f, ": {}", self.data_field.quantity(value)),
            (Some(value), base) => write!(f, ": {base} + {}", self.data_field.quantity(value)),
        }
    }
}

impl Message {
    /// Reads a message after all of its fields are checked.
    ///
    /// Refusals: SHORT, NUMBER, LENGTH, FILL, RANGE.
    pub fn read(bytes: &[u8]) -> Result<Self, Refusal> {
        let row = read_fields(bytes)?;
        Ok(Message::from_row(&row).expect("an accepted message has the fields of its layout"))
    }

    /// A message of a number whose other fields are 0 and whose names are empty.
    ///
    /// Refusals: NUMBER.
    pub fn new(number: u16) -> Result<Self, Refusal> {
        let places = places(number, [0; 2]).ok_or(Refusal::Number)?;
        let mut row = vec![Some(0); places.len()];
        row[0] = Some(i64::from(number));
        Message::from_row(&row).ok_or(Refusal::Number)
    }

    /// The message of a row, or nothing where the row has not the count of fields that its number and name counters call for.
    pub fn from_row(row: &[Option<i64>]) -> Option<Self> {
        let number = u16::try_from((*row.first()?)?).ok()?;
        let length = |place: usize| row.get(place).copied().flatten().and_then(|value| usize::try_from(value).ok());
        let names = match number {
            1021 | 1022 => {
                let source = length(1).filter(|&length| length <= MOST_CHARACTERS)?;
                [source, length(2 + source).filter(|&length| length <= MOST_CHARACTERS)?]
            }
            _ => [0; 2],
        };
        let places = places(number, names).filter(|places| places.len() == row.len())?;
        let fields = places.into_iter().zip(row).map(|((df, node), &value)| Field {
            data_field: DataField::of(df).expect("a layout names data fields"),
            node,
            value,
        });
        Some(Message { number, fields: fields.collect() })
    }

    /// The message number, DF002.
    pub fn number(&self) -> u16 {
        self.number
    }

    /// The group under which a table keeps the message.
    pub fn group(&self) -> Group {
        Group::of_message(self.number).expect("a message is one of 1021 to 1027")
    }

    /// The system identification number, DF147, or nothing where it was set to a number that is none.
    pub fn sin(&self) -> Option<u8> {
        self.value(SIN).and_then(|value| u8::try_from(value).ok())
    }

    /// The fields in wire order, which is that of a row.
    pub fn fields(&self) -> &[Field] {
        &self.fields
    }

    /// The first field of a DF number, or nothing where the message has none of it.
    pub fn field(&self, df: u16) -> Option<&Field> {
        self.fields.iter().find(|field| field.df() == df)
    }

    /// The field of a DF number at a node, 1 to [`NODES`], or nothing where the message has none.
    pub fn node_field(&self, df: u16, node: u8) -> Option<&Field> {
        self.fields.iter().find(|field| field.df() == df && field.node == Some(node))
    }

    /// The value of the first field of a DF number, or nothing where it is not available or the message has no such field.
    pub fn value(&self, df: u16) -> Option<i64> {
        self.field(df)?.value
    }

    /// The value of the field of a DF number at a node, or nothing where it is not available or there is no such field.
    pub fn value_at_node(&self, df: u16, node: u8) -> Option<i64> {
        self.node_field(df, node)?.value
    }

    /// The values at the nodes of a grid, node 1 first, or nothing where the DF number is no field of the message's nodes.
    pub fn nodes(&self, df: u16) -> Option<[Option<i64>; NODES]> {
        let fields: Vec<Option<i64>> = self
            .fields
            .iter()
            .filter(|field| field.df() == df && field.node.is_some())
            .map(|field| field.value)
            .collect();
        fields.try_into().ok()
    }

    /// The source name (DF144) of a 1021 or 1022, whose characters are those of ISO 8859-1.
    pub fn source_name(&self) -> Option<String> {
        self.name(NAMES[0])
    }

    /// The target name (DF146) of a 1021 or 1022, whose characters are those of ISO 8859-1.
    pub fn target_name(&self) -> Option<String> {
        self.name(NAMES[1])
    }

    /// The name of a counter and its characters.
    fn name(&self, (counter, characters): (u16, u16)) -> Option<String> {
        self.field(counter)?;
        let values = self.fields.iter().filter(|field| field.df() == characters).map(|field| field.value);
        values.map(|value| u8::try_from(value?).ok().map(char::from)).collect()
    }

    /// Sets the first field of a DF number, `None` being not available; whether the value is in its range is for
    /// [`Message::write`] to say.
    ///
    /// Refusals: RANGE where the message has no such field.
    pub fn set(&mut self, df: u16, value: impl Into<Option<i64>>) -> Result<&mut Self, Refusal> {
        let field = self.fields.iter_mut().find(|field| field.df() == df).ok_or(Refusal::Range)?;
        field.value = value.into();
        Ok(self)
    }

    /// Sets the field of a DF number at a node, 1 to [`NODES`].
    ///
    /// Refusals: RANGE where the message has no such field.
    pub fn set_node(&mut self, df: u16, node: u8, value: impl Into<Option<i64>>) -> Result<&mut Self, Refusal> {
        let is_it = |field: &&mut Field| field.df() == df && field.node == Some(node);
        let field = self.fields.iter_mut().find(is_it).ok_or(Refusal::Range)?;
        field.value = value.into();
        Ok(self)
    }

    /// Sets source name and target name of a 1021 or 1022, with their counters.
    ///
    /// Refusals: RANGE where the message has no names, or where a name has more than 31 characters or one that is not of ISO
    /// 8859-1.
    pub fn set_names(&mut self, source: &str, target: &str) -> Result<&mut Self, Refusal> {
        let mut row = self.row();
        let others = self.fields.iter().position(|field| field.df() == SIN).ok_or(Refusal::Range)?;
        self.field(NAMES[0].0).ok_or(Refusal::Range)?;
        let names = [name_fields(source)?, name_fields(target)?].concat();
        row.splice(1..others, names);
        *self = Message::from_row(&row).ok_or(Refusal::Range)?;
        Ok(self)
    }

    /// The row of the message, as [`write_fields`] takes it.
    pub fn row(&self) -> Vec<Option<i64>> {
        self.fields.iter().map(|field| field.value).collect()
    }

    /// The bytes of the message.
    ///
    /// Refusals: RANGE where a value is outside its field's range or width, or not available in a field that always has one.
    pub fn write(&self) -> Result<Vec<u8>, Refusal> {
        write_fields(&self.row())
    }
}

/// The counter and the characters of a name as fields.
fn name_fields(name: &str) -> Result<Vec<Option<i64>>, Refusal> {
    let characters: Result<Vec<u8>, _> = name.chars().map(u8::try_from).collect();
    let characters = characters.map_err(|_| Refusal::Range)?;
    let counter = characters.len() as i64;
    Ok(std::iter::once(counter).chain(characters.into_iter().map(i64::from)).map(Some).collect())
}
