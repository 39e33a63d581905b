//! The command line.

use crate::failure::Failure;
use std::ffi::OsString;
use std::path::PathBuf;

pub const USAGE: &str = "\
Join sheets as text and as bytes, and their estimates.

  sheet text [FILE]         the text of a sheet's bytes
  sheet bytes [FILE]        the bytes of a sheet's text
  sheet join [FILE]         the estimates of the sheet's join
  sheet predicate N [FILE]  the estimate of expression N as a predicate
  sheet split N [FILE]      the conjuncts of expression N
  sheet help                this text

Without FILE, standard input is read. join, predicate and split take a sheet as bytes or as text:
whatever has a zero byte in it is taken as bytes, for every sheet has one and no text does. In the
place of a refusal, records, items and bytes count from 0; lines count from 1.

Exit status: 0 answered; 1 the text or the sheet is refused, or it has no expression N; 2 wrong
arguments, or something that cannot be read or written. Standard output stays empty unless it is 0.
";

/// What is asked for.
#[derive(Debug, Clone, Copy, PartialEq, Eq)]
pub enum Command {
    Text,
    Bytes,
    Join,
    Predicate(u16),
    Split(u16),
    Help,
}

/// What is asked for, and of which file; without one, of standard input.
#[derive(Debug, PartialEq, Eq)]
pub struct Request {
    pub command: Command,
    pub file: Option<PathBuf>,
}

/// The request of the arguments behind the program's name.
pub fn request(arguments: impl Iterator<Item = OsString>) -> Result<Request, Failure> {
    let mut rest = arguments;
    let command = command(&mut rest)?;
    let file = match command {
        Command::Help => None,
        _ => rest.next().map(PathBuf::from),
    };
    match rest.next() {
        None => Ok(Request { command, file }),
        Some(more) => Err(wrong("no more arguments", Some(more))),
    }
}

fn command(rest: &mut impl Iterator<Item = OsString>) -> Result<Command, Failure> {
    let word = rest.next();
    let name = word.as_ref().and_then(|word| word.to_str());
    match name {
        Some("text") => Ok(Command::Text),
        Some("bytes") => Ok(Command::Bytes),
        Some("join") => Ok(Command::Join),
        Some("predicate") => Ok(Command::Predicate(number(rest)?)),
        Some("split") => Ok(Command::Split(number(rest)?)),
        Some("help" | "--help" | "-h") => Ok(Command::Help),
        _ => Err(wrong("text, bytes, join, predicate, split or help", word)),
    }
}

/// The number of an expression.
fn number(rest: &mut impl Iterator<Item = OsString>) -> Result<u16, Failure> {
    let word = rest.next();
    let digits = word
        .as_ref()
        .and_then(|word| word.to_str())
        .filter(|word| word.bytes().all(|byte| byte.is_ascii_digit()));
    let number = digits.and_then(|digits| digits.parse().ok());
    number.ok_or_else(|| wrong("the number of an expression, up to 65535", word))
}

fn wrong(expected: &str, found: Option<OsString>) -> Failure {
    let found = match found {
        None => "no argument".into(),
        Some(word) => format!("'{}'", word.to_string_lossy().escape_debug()),
    };
    Failure::Cannot(format!(
        "sheet: expected {expected}, found {found}\n\n{USAGE}"
    ))
}
