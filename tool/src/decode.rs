//! The command decode: every message of a stream, field by field.

use crate::arguments::Arguments;
use crate::bits;
use crate::failure::{unreadable, unwritten, Failure};
use crate::fault::{self, Fault};
use crate::input::{words, Input};
use crate::json::Json;
use crate::library::{self, MOST_FIELDS};
use crate::progress::Progress;
use crate::shown::{Counts, Head, Printer};
use crate::stream::{self, Pieces, Stopped};
use crate::tables::{Message, Tables};
use crate::text::Text;
use std::io::{BufWriter, StdoutLock, Write};

/// Shows the pieces of a stream on standard output.
struct Decoder<'a> {
    tables: &'a Tables,
    printer: Box<dyn Printer>,
    out: BufWriter<StdoutLock<'static>>,
    /// What is to be written next.
    line: String,
    counts: Counts,
    progress: Progress,
}

impl Decoder<'_> {
    /// Writes what was appended to the line.
    fn write_line(&mut self) -> Result<(), Failure> {
        let written = self.out.write_all(self.line.as_bytes());
        self.line.clear();
        written.map_err(unwritten)
    }

    /// Appends a message 1021 to 1027.
    fn show_known(&mut self, head: &Head, layout: &Message, message: &[u8]) {
        let mut row = [None; MOST_FIELDS];
        let read =
            library::read(message).and_then(|header| Ok((header.sin, library::read_fields_into(message, &mut row)?)));
        match read {
            Ok((sin, count)) => {
                self.counts.messages += 1;
                self.printer.message(&mut self.line, self.tables, layout, head, sin, &row[..count]);
            }
            Err(refusal) => {
                self.counts.refused += 1;
                let fault = fault::of(self.tables, layout, message, refusal);
                self.printer.refused(&mut self.line, self.tables, head, refusal, &fault);
            }
        }
    }

    /// Appends a message of another number, or one that is too short for a number.
    fn show_other(&mut self, head: &Head, message: &[u8]) {
        match (head.number, library::read(message)) {
            (None, Err(refusal)) => {
                self.counts.refused += 1;
                self.printer.refused(&mut self.line, self.tables, head, refusal, &Fault::default());
            }
            _ => {
                self.counts.other += 1;
                self.printer.other(&mut self.line, head);
            }
        }
    }
}

impl Pieces for Decoder<'_> {
    type Failure = Failure;

    fn outside(&mut self, at: u64, length: u64) -> Result<(), Failure> {
        self.counts.outside += length;
        self.printer.outside(&mut self.line, at, length);
        self.write_line()
    }

    fn message(&mut self, at: u64, framed: bool, message: &[u8]) -> Result<(), Failure> {
        self.counts.frames += u64::from(framed);
        let number = bits::number(message);
        let about = number.and_then(|number| self.tables.message(number));
        let head = Head { at, framed, length: message.len(), number, name: about.map(|about| about.name.as_str()) };
        match about.filter(|about| !about.slots.is_empty()) {
            Some(layout) => self.show_known(&head, layout, message),
            None => self.show_other(&head, message),
        }
        self.write_line()
    }

    fn pause(&mut self, bytes: u64) -> Result<(), Failure> {
        self.progress.show(bytes);
        self.out.flush().map_err(unwritten)
    }
}

/// Shows a file, or standard input.
pub fn run(mut arguments: Arguments) -> Result<(), Failure> {
    let json = arguments.flag("--json");
    let file = arguments.optional();
    arguments.end()?;
    let input = Input::open(file.as_deref())?;
    let tables = Tables::new();
    let printer: Box<dyn Printer> = if json { Box::new(Json) } else { Box::new(Text::new(&tables)) };
    let mut decoder = Decoder {
        tables: &tables,
        printer,
        out: BufWriter::new(std::io::stdout().lock()),
        line: String::new(),
        counts: Counts::default(),
        progress: Progress::new(input.size()),
    };
    let read = stream::read(input, &mut decoder);
    decoder.progress.end();
    let bytes = read.map_err(|stopped| match stopped {
        Stopped::Unreadable(error) => unreadable(words(file.as_deref()), &error),
        Stopped::Taker(failure) => failure,
    })?;
    decoder.printer.end(&mut decoder.line, bytes, &decoder.counts);
    decoder.write_line()?;
    decoder.out.flush().map_err(unwritten)?;
    verdict(&decoder.counts, words(file.as_deref()), bytes)
}

/// Fails where a message was refused, or where there was none.
fn verdict(counts: &Counts, file: &str, bytes: u64) -> Result<(), Failure> {
    let nothing = counts.frames + counts.messages + counts.refused == 0;
    match counts.refused {
        _ if bytes == 0 => Err(Failure::Refused(format!("{file} is empty"))),
        _ if nothing => Err(Failure::Refused(format!("{file} holds neither a frame nor a bare message 1021 to 1027"))),
        0 => Ok(()),
        1 => Err(Failure::Refused(format!("1 message of {file} is refused"))),
        count => Err(Failure::Refused(format!("{count} messages of {file} are refused"))),
    }
}
