//! The comment of include/tarnoklej.h that says where each data field stands in a row.

use crate::fields::by_df;
use crate::layouts::{layout, Part, NUMBERS};
use crate::page::resolution;

/// The first lines of the comment.
const HEAD: &str = "/* Positions in a row by DF number: position, field, type, resolution, name.
 * N is the value at position 1, M the value at position 2+N; i is 0 to 15 for nodes 1 to 16.
 * A field of type intN can have no value (present 0), all others always have one; docs/FIELDS.md has the ranges.
";

/// A position that may lie behind names.
#[derive(Clone, Copy)]
struct Position {
    /// The fields before it, the characters of names left out.
    fixed: usize,
    /// The names before it.
    names: usize,
}

impl Position {
    /// The position some fields further.
    fn plus(self, fields: usize) -> Position {
        Position { fixed: self.fixed + fields, ..self }
    }

    /// The position as it is written, as 3+N+M.
    fn text(self) -> String {
        format!("{}{}", self.fixed, ["", "+N", "+N+M"][self.names])
    }
}

/// The line of one field.
fn line(position: &str, df: u16) -> String {
    let field = by_df(df);
    let columns =
        format!(" *   {position:<12} DF{df:03}  {:<8} {:<19} {}", field.data_type(), resolution(field), field.name);
    format!("{columns}\n")
}

/// The lines of one message and the position behind its last field.
fn lines(number: u16) -> (String, Position) {
    let mut at = Position { fixed: 0, names: 0 };
    let mut text = String::new();
    for part in layout(number as i64).expect("a known number") {
        match *part {
            Part::One(df) => {
                text += &line(&at.text(), df);
                at = at.plus(1);
            }
            Part::Name { counter, character } => {
                text += &line(&at.text(), counter);
                let behind = Position { fixed: at.fixed + 1, names: at.names + 1 };
                let last = Position { fixed: behind.fixed - 1, ..behind };
                text += &line(&format!("{}..{}", at.plus(1).text(), last.text()), character);
                at = behind;
            }
            Part::SixteenPoints(three) => {
                for (i, df) in three.into_iter().enumerate() {
                    text += &line(&format!("{}+3i", at.plus(i).text()), df);
                }
                at = at.plus(48);
            }
        }
    }
    (text, at)
}

/// The whole comment.
pub fn comment() -> String {
    let mut text = HEAD.to_string();
    for number in NUMBERS {
        let (lines, end) = lines(number);
        text += &format!(" *\n * {number}, {} fields:\n{lines}", end.text());
    }
    text + " */\n"
}
