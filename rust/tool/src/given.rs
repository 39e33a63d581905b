//! The sheet that is asked about: its bytes, and the lines of its text where it came as text.

use crate::failure::Failure;
use crate::input::Input;
use sheet::text::{self, Lines};
use sheet::values::Section;
use sheet::writer;
use std::fmt::Display;

pub struct Given {
    pub name: String,
    pub bytes: Vec<u8>,
    lines: Option<Lines>,
}

impl Given {
    pub fn bytes(input: Input) -> Given {
        Given {
            name: input.name,
            bytes: input.bytes,
            lines: None,
        }
    }

    /// The sheet of a text, which may still break a rule.
    pub fn text(input: Input) -> Result<Given, Failure> {
        let name = input.name;
        let text = decoded(&name, &input.bytes)?;
        let parsed =
            text::read(text).map_err(|error| mistake(&name, error.line, &error.message()))?;
        Ok(Given {
            name,
            bytes: writer::write(&parsed.sheet),
            lines: Some(parsed.lines),
        })
    }

    /// Every accepted sheet has a zero byte, for its second byte is one. A text has none.
    pub fn either(input: Input) -> Result<Given, Failure> {
        match input.bytes.contains(&0) {
            true => Ok(Given::bytes(input)),
            false => Given::text(input),
        }
    }

    /// The line of a record or an item, if there is one.
    pub fn line(
        &self,
        section: Option<Section>,
        record: Option<usize>,
        item: Option<usize>,
    ) -> Option<usize> {
        self.lines.as_ref()?.line(section?, record, item)
    }

    /// Says why the sheet gets no answer.
    pub fn refused(&self, why: impl Display) -> Failure {
        Failure::Refused(format!("{}: {why}", self.name))
    }
}

fn mistake(name: &str, line: usize, message: &str) -> Failure {
    Failure::Refused(format!("{name}:{line}: {message}"))
}

/// The bytes as text, without zero bytes.
fn decoded<'a>(name: &str, bytes: &'a [u8]) -> Result<&'a str, Failure> {
    let (end, text) = match str::from_utf8(bytes) {
        Ok(text) => (bytes.len(), text),
        Err(error) => (error.valid_up_to(), ""),
    };
    let zero = bytes[..end].iter().position(|byte| *byte == 0);
    let place = zero.unwrap_or(end);
    let Some(byte) = bytes.get(place) else {
        return Ok(text);
    };
    let line = 1 + bytes[..place].iter().filter(|byte| **byte == b'\n').count();
    let message = format!("expected text in UTF-8 without zero bytes, found the byte {byte:02X}");
    Err(mistake(name, line, &message))
}
