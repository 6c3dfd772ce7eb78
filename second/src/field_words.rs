//! The words of fields and messages: names and codes as source document 000 prints them, from the two tables that
//! `second field_table` holds to its text.

use std::collections::HashMap;

/// The words of one data field.
#[derive(Default, Debug)]
pub struct FieldWords {
    /// The name that the message tables print.
    pub name: String,
    /// What codes mean: first, last and words.
    pub codes: Vec<(i64, i64, String)>,
    /// What the bits of a bit field mean, Bit(1) first.
    pub bits: Vec<String>,
}

/// The words of all fields and messages.
#[derive(Debug)]
pub struct Words {
    fields: HashMap<u16, FieldWords>,
    messages: Vec<(i64, i64, String)>,
}

/// The cells of one line of a CSV table.
pub fn cells(line: &str) -> Vec<String> {
    let mut cells = vec![String::new()];
    let mut quoted = false;
    for sign in line.chars() {
        match sign {
            '"' => quoted = !quoted,
            ',' if !quoted => cells.push(String::new()),
            other => cells.last_mut().expect("one cell is there").push(other),
        }
    }
    cells
}

/// First and last of `7` or of `17..31`.
pub fn ends(text: &str, between: &str) -> Option<(i64, i64)> {
    let (first, last) = text.split_once(between).unwrap_or((text, text));
    Some((first.parse().ok()?, last.parse().ok()?))
}

/// The entries of a cell such as `0=unknown plate;17..31=Reserved`.
pub fn entries(cell: &str) -> Option<Vec<(i64, i64, String)>> {
    let parts = cell.split(';').filter(|part| !part.is_empty());
    parts
        .map(|part| {
            let (key, words) = part.split_once('=')?;
            let (first, last) = ends(key, "..")?;
            Some((first, last, words.to_string()))
        })
        .collect()
}

/// One line of the table of fields, by its columns' order.
fn field_words(line: &str) -> Option<(u16, FieldWords)> {
    let cells = cells(line);
    let df = cells.first()?.strip_prefix("DF")?.parse().ok()?;
    let bits = entries(cells.get(9)?)?.into_iter().map(|(_, _, words)| words).collect();
    Some((df, FieldWords { name: cells.get(1)?.clone(), codes: entries(cells.get(8)?)?, bits }))
}

/// One line of the table of messages.
fn message_words(line: &str) -> Option<(i64, i64, String)> {
    let cells = cells(line);
    let (first, last) = ends(cells.first()?, "-")?;
    Some((first, last, cells.get(1)?.clone()))
}

impl Words {
    /// The words in the two tables, or nothing where one has another form.
    pub fn of(fields: &str, messages: &str) -> Option<Words> {
        Some(Words {
            fields: fields.lines().skip(1).map(field_words).collect::<Option<_>>()?,
            messages: messages.lines().skip(1).map(message_words).collect::<Option<_>>()?,
        })
    }

    /// The words of a field.
    pub fn field(&self, df: u16) -> &FieldWords {
        &self.fields[&df]
    }

    /// The name of a message number.
    pub fn message(&self, number: i64) -> Option<&str> {
        self.messages.iter().find(|(first, last, _)| (first..=last).contains(&&number)).map(|found| found.2.as_str())
    }

    /// What a code of a field means.
    pub fn code(&self, df: u16, raw: i64) -> Option<&str> {
        let found = self.field(df).codes.iter().find(|(first, last, _)| (first..=last).contains(&&raw));
        found.map(|found| found.2.as_str())
    }
}
