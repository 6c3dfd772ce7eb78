//! Why a command ends without its answer, and its exit status.

use std::fmt;

/// A failure in words.
#[derive(Debug)]
pub enum Failure {
    /// A wrong call, or a file that cannot be read or written: exit status 2.
    Wrong(String),
    /// A message or file that is refused: exit status 1.
    Refused(String),
    /// Whoever reads standard output has gone, which needs no words.
    Unread,
}

impl Failure {
    /// The exit status.
    pub fn status(&self) -> u8 {
        match self {
            Failure::Wrong(_) => 2,
            Failure::Refused(_) => 1,
            Failure::Unread => 0,
        }
    }
}

impl fmt::Display for Failure {
    fn fmt(&self, f: &mut fmt::Formatter) -> fmt::Result {
        match self {
            Failure::Wrong(words) | Failure::Refused(words) => f.write_str(words),
            Failure::Unread => f.write_str("standard output is closed"),
        }
    }
}

/// A wrong call in words.
pub fn wrong(words: impl Into<String>) -> Failure {
    Failure::Wrong(words.into())
}

/// A failure of standard output.
pub fn unwritten(error: std::io::Error) -> Failure {
    match error.kind() {
        std::io::ErrorKind::BrokenPipe => Failure::Unread,
        _ => Failure::Wrong(format!("cannot write to standard output: {error}")),
    }
}

/// A failure of a file that is read.
pub fn unreadable(file: &str, error: &std::io::Error) -> Failure {
    Failure::Wrong(format!("cannot read {file}: {error}"))
}
