//! The message of a file that a command is about: a bare one, or one of a recording, by its system identification number.

use crate::arguments::Arguments;
use crate::bits;
use crate::failure::{unreadable, wrong, Failure};
use crate::input::{words, Input};
use crate::library::read;
use crate::stream::{self, Pieces, Stopped};
use std::collections::BTreeMap;

/// The messages of a stream that may be meant.
struct Candidates<'a> {
    /// The numbers that may be meant.
    numbers: &'a [u16],
    /// The last accepted message of each system identification number.
    last: BTreeMap<u8, Vec<u8>>,
    bare: Option<Vec<u8>>,
    frames: u64,
    refused: u64,
}

impl Pieces for Candidates<'_> {
    type Failure = Failure;

    fn outside(&mut self, _at: u64, _length: u64) -> Result<(), Failure> {
        Ok(())
    }

    fn message(&mut self, _at: u64, framed: bool, message: &[u8]) -> Result<(), Failure> {
        if !framed {
            self.bare = Some(message.to_vec());
            return Ok(());
        }
        self.frames += 1;
        if bits::number(message).is_some_and(|number| self.numbers.contains(&number)) {
            match read(message) {
                Ok(header) => drop(self.last.insert(header.sin, message.to_vec())),
                Err(_) => self.refused += 1,
            }
        }
        Ok(())
    }

    fn pause(&mut self, _bytes: u64) -> Result<(), Failure> {
        Ok(())
    }
}

/// The system identification number of the option `--sin`.
pub fn sin_option(arguments: &mut Arguments) -> Result<Option<u8>, Failure> {
    let Some(text) = arguments.value("--sin")? else { return Ok(None) };
    text.parse().map(Some).map_err(|_| wrong(format!("not a system identification number, 0 to 255: {text}")))
}

/// The message of a file: a bare one whatever its number, else the last accepted one of the numbers given.
pub fn message(file: &str, numbers: &[u16], sin: Option<u8>) -> Result<Vec<u8>, Failure> {
    let mut found = Candidates { numbers, last: BTreeMap::new(), bare: None, frames: 0, refused: 0 };
    stream::read(Input::open(Some(file))?, &mut found).map_err(|stopped| match stopped {
        Stopped::Unreadable(error) => unreadable(words(Some(file)), &error),
        Stopped::Taker(failure) => failure,
    })?;
    match (found.bare.take(), sin) {
        (Some(bare), None) => Ok(bare),
        (Some(bare), Some(sin)) => of_sin(bare, sin, file),
        (None, _) => from_recording(found, sin, file),
    }
}

/// A bare message, which must have the system identification number asked for where it is accepted.
fn of_sin(bare: Vec<u8>, sin: u8, file: &str) -> Result<Vec<u8>, Failure> {
    match read(&bare) {
        Ok(header) if header.sin != sin => {
            Err(wrong(format!("the message in {file} has SIN {}, not {sin}", header.sin)))
        }
        _ => Ok(bare),
    }
}

/// The message of a recording.
fn from_recording(mut found: Candidates, sin: Option<u8>, file: &str) -> Result<Vec<u8>, Failure> {
    let file = words(Some(file));
    if found.frames == 0 {
        return Err(Failure::Refused(format!("{file} holds neither a frame nor a bare message 1021 to 1027")));
    }
    let numbers = listed(found.numbers, " or ");
    let none = |of_sin: String| {
        let refused = if found.refused > 0 { format!(", but {} refused", found.refused) } else { String::new() };
        Failure::Refused(format!("{file} holds no accepted message {numbers}{of_sin}{refused}"))
    };
    let sins: Vec<u8> = found.last.keys().copied().collect();
    match (sin, &sins[..]) {
        (_, []) => Err(none(String::new())),
        (Some(sin), _) => found.last.remove(&sin).ok_or_else(|| none(format!(" of SIN {sin}"))),
        (None, [only]) => Ok(found.last.remove(only).expect("the only one is there")),
        (None, _) => {
            Err(wrong(format!("{file} holds messages {numbers} of SIN {}; choose one by --sin N", listed(&sins, ", "))))
        }
    }
}

/// Numbers behind one another.
fn listed<T: ToString>(items: &[T], between: &str) -> String {
    items.iter().map(T::to_string).collect::<Vec<_>>().join(between)
}
