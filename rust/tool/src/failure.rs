//! Why there is no answer.

/// What is said on standard error, and which exit status goes with it.
#[derive(Debug, PartialEq, Eq)]
pub enum Failure {
    /// The text, the sheet or the expression's number is turned back.
    Refused(String),
    /// The arguments are wrong, or something cannot be read or written.
    Cannot(String),
}

impl Failure {
    pub fn message(&self) -> &str {
        match self {
            Failure::Refused(message) | Failure::Cannot(message) => message,
        }
    }

    pub fn status(&self) -> u8 {
        match self {
            Failure::Refused(_) => 1,
            Failure::Cannot(_) => 2,
        }
    }
}
