//! How far a long file is read, on standard error where that is a terminal.

use std::io::{IsTerminal, Write};
use std::time::{Duration, Instant};

/// Time before the first line, and between two.
const BETWEEN: Duration = Duration::from_millis(100);

/// The progress through a file.
pub struct Progress {
    /// Bytes of the file, or nothing where no progress is shown.
    size: Option<u64>,
    last: Instant,
    shown: bool,
}

impl Progress {
    /// Progress through a file of a known size; it is shown where standard error is a terminal and the answer goes elsewhere.
    pub fn new(size: Option<u64>) -> Progress {
        let shows = std::io::stderr().is_terminal() && !std::io::stdout().is_terminal();
        Progress { size: size.filter(|_| shows), last: Instant::now(), shown: false }
    }

    /// Shows how many bytes are read, now and then.
    pub fn show(&mut self, bytes: u64) {
        let Some(size) = self.size else { return };
        if self.last.elapsed() < BETWEEN {
            return;
        }
        self.last = Instant::now();
        self.shown = true;
        let percent = (100 * bytes).checked_div(size).unwrap_or(100).min(100);
        eprint!("\rtarnoklej: {} of {} MB, {percent} % ", bytes / 1_000_000, size / 1_000_000);
        let _ = std::io::stderr().flush();
    }

    /// Clears the line.
    pub fn end(&mut self) {
        if self.shown {
            eprint!("\r\x1b[K");
        }
    }
}
