//! The words behind a command.

use crate::failure::{wrong, Failure};

/// The words that are not taken yet.
pub struct Arguments {
    command: &'static str,
    words: Vec<String>,
}

/// Whether a word is an option: it begins with a hyphen and is neither a number nor the hyphen alone.
fn is_option(word: &str) -> bool {
    let digit_or_point = |sign: u8| sign.is_ascii_digit() || sign == b'.';
    word.len() > 1 && word.starts_with('-') && !digit_or_point(word.as_bytes()[1])
}

impl Arguments {
    /// The words behind a command.
    pub fn new(command: &'static str, words: Vec<String>) -> Arguments {
        Arguments { command, words }
    }

    /// A failure with where to find the right form.
    fn wrong(&self, words: String) -> Failure {
        wrong(format!("{words}; see tarnoklej help {}", self.command))
    }

    /// Takes an option without a value, and says whether it was there.
    pub fn flag(&mut self, name: &str) -> bool {
        let place = self.words.iter().position(|word| word == name);
        place.map(|place| self.words.remove(place)).is_some()
    }

    /// Takes an option with a value, `--name VALUE` or `--name=VALUE`.
    pub fn value(&mut self, name: &str) -> Result<Option<String>, Failure> {
        let joined = format!("{name}=");
        let is_it = |word: &String| word == name || word.starts_with(&joined);
        let Some(place) = self.words.iter().position(is_it) else { return Ok(None) };
        let word = self.words.remove(place);
        match word.strip_prefix(&joined) {
            Some(value) => Ok(Some(value.to_string())),
            None if place < self.words.len() => Ok(Some(self.words.remove(place))),
            None => Err(self.wrong(format!("{name} needs a value"))),
        }
    }

    /// Takes the next word, if there is one that is no option.
    pub fn optional(&mut self) -> Option<String> {
        let place = self.words.iter().position(|word| !is_option(word))?;
        Some(self.words.remove(place))
    }

    /// Takes the next word, which must be there.
    pub fn required(&mut self, name: &str) -> Result<String, Failure> {
        self.optional().ok_or_else(|| self.wrong(format!("{} needs {name}", self.command)))
    }

    /// Fails where a word is left.
    pub fn end(&self) -> Result<(), Failure> {
        match self.words.first() {
            None => Ok(()),
            Some(word) if is_option(word) => Err(self.wrong(format!("{} has no option {word}", self.command))),
            Some(word) => Err(self.wrong(format!("{} takes no further word {word}", self.command))),
        }
    }
}
