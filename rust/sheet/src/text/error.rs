//! What is wrong with a text.

use std::error::Error;
use std::fmt;

/// The first mistake of a text: its line, counted from 1, what stands there and what should.
#[derive(Debug, Clone, PartialEq, Eq)]
pub struct TextError {
    pub line: usize,
    pub expected: String,
    pub found: String,
}

impl TextError {
    /// What is wrong, without the line.
    pub fn message(&self) -> String {
        format!("expected {}, found {}", self.expected, self.found)
    }
}

impl fmt::Display for TextError {
    fn fmt(&self, out: &mut fmt::Formatter<'_>) -> fmt::Result {
        write!(out, "line {}: {}", self.line, self.message())
    }
}

impl Error for TextError {}

/// A word as a message shows it.
pub(super) fn quoted(word: &str) -> String {
    format!("'{}'", word.escape_debug())
}

/// "a", "a or b", "a, b or c".
pub(super) fn one_of(all: &[String]) -> String {
    match all {
        [] => String::new(),
        [only] => only.clone(),
        [first @ .., last] => format!("{} or {last}", first.join(", ")),
    }
}
