//! A file or standard input.

use crate::failure::{unreadable, Failure};
use std::fs::File;
use std::io::{IsTerminal, Read, Stdin};

/// The name of standard input as a file.
const STANDARD_INPUT: &str = "-";

/// What is read.
pub enum Input {
    File(File),
    Standard(Stdin),
}

impl Input {
    /// Opens a file, or standard input where the name is `-` or there is none.
    pub fn open(file: Option<&str>) -> Result<Input, Failure> {
        match file {
            None | Some(STANDARD_INPUT) => {
                let input = std::io::stdin();
                if input.is_terminal() {
                    eprintln!("tarnoklej: reading standard input");
                }
                Ok(Input::Standard(input))
            }
            Some(name) => File::open(name).map(Input::File).map_err(|error| unreadable(name, &error)),
        }
    }

    /// The size of a file, where it is known.
    pub fn size(&self) -> Option<u64> {
        match self {
            Input::File(file) => file.metadata().ok().filter(|about| about.is_file()).map(|about| about.len()),
            Input::Standard(_) => None,
        }
    }
}

impl Read for Input {
    fn read(&mut self, bytes: &mut [u8]) -> std::io::Result<usize> {
        match self {
            Input::File(file) => file.read(bytes),
            Input::Standard(input) => input.read(bytes),
        }
    }
}

/// The name of an input in words.
pub fn words(file: Option<&str>) -> &str {
    match file {
        None | Some(STANDARD_INPUT) => "standard input",
        Some(name) => name,
    }
}
