//! fields [FILE]: prints the fields of the messages 1021 to 1027 of a stream of frames, as its bytes arrive.
//!
//! Without FILE the stream is standard input. Other messages and refused ones are a line each.

use std::io::{self, Read, Write};
use std::process::ExitCode;
use tarnoklej::{message_number, FrameStream, Message, Refusal, StreamFrame};

/// Prints what stands in a frame.
fn print_frame(out: &mut impl Write, frame: StreamFrame) -> io::Result<()> {
    let number = message_number(frame.message).map_or("without a number".to_string(), |number| number.to_string());
    writeln!(out, "byte {}: message {number}, {} bytes", frame.at, frame.message.len())?;
    match Message::read(frame.message) {
        Ok(message) => message.fields().iter().try_for_each(|field| writeln!(out, "  {field}")),
        Err(Refusal::Short | Refusal::Number) => Ok(()),
        Err(refusal) => writeln!(out, "  refused {refusal}"),
    }
}

/// Prints all frames of a source.
fn print_all(source: &mut impl Read) -> io::Result<()> {
    let mut out = io::stdout().lock();
    let mut stream = FrameStream::new();
    let mut more = true;
    while more {
        more = stream.read_from(source)? > 0;
        while let Some(frame) = stream.next_frame() {
            print_frame(&mut out, frame)?;
        }
        out.flush()?;
    }
    writeln!(out, "{} bytes, {} outside frames", stream.length(), stream.outside())
}

fn main() -> ExitCode {
    let words: Vec<String> = std::env::args().skip(1).collect();
    let printed = match &words[..] {
        [] => print_all(&mut io::stdin().lock()),
        [file] => std::fs::File::open(file).and_then(|mut file| print_all(&mut file)),
        _ => Err(io::Error::other("usage: fields [FILE]")),
    };
    match printed {
        Err(error) if error.kind() != io::ErrorKind::BrokenPipe => {
            eprintln!("fields: {error}");
            ExitCode::from(2)
        }
        _ => ExitCode::SUCCESS,
    }
}
