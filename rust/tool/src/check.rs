//! Whether a sheet is accepted. The proved library says so, and the reader in Rust says where.

use crate::expected::expected;
use crate::failure::Failure;
use crate::given::Given;
use estimates::Refusal;
use sheet::reader::{self, Read};
use sheet::text::section_name;
use sheet::values::Sheet;

/// No sheet has an expression of this number.
const NO_EXPRESSION: u16 = u16::MAX;

/// The sheet of accepted bytes.
pub fn sheet(given: &Given) -> Result<Sheet, Failure> {
    agreed(given, verdict(&given.bytes), reader::read(&given.bytes))
}

/// The library's refusal of a sheet, if it has one: a call with no expression of the sheet is
/// refused for the sheet first.
fn verdict(bytes: &[u8]) -> Option<Refusal> {
    let refusal = estimates::split(bytes, NO_EXPRESSION).err();
    refusal.filter(|refusal| *refusal != Refusal::NoSuchExpression)
}

fn agreed(
    given: &Given,
    library: Option<Refusal>,
    read: Result<Read, reader::Refusal>,
) -> Result<Sheet, Failure> {
    let number = library.map_or(0, Refusal::number);
    let place = match read {
        Ok(read) if number == 0 => return Ok(read.sheet),
        Err(place) if number == place.number => place,
        Ok(_) => return Err(disagreement(given, number, 0)),
        Err(place) => return Err(disagreement(given, number, place.number)),
    };
    let rule = library.map_or(String::new(), |refusal| refusal.to_string());
    Err(Failure::Refused(refused(given, &rule, &place)))
}

/// 0 stands for accepted.
fn disagreement(given: &Given, library: u8, reader: u8) -> Failure {
    let word = |number| match number {
        0 => "accepts it".into(),
        _ => format!("refuses it with {number}"),
    };
    given.refused(format!(
        "THE LIBRARY AND THE READER DISAGREE about this sheet.\n  The proved library {}, the \
         reader in Rust {}. One of them is wrong: keep the sheet and report it.",
        word(library),
        word(reader)
    ))
}

/// The rule, the place and what was expected there.
fn refused(given: &Given, rule: &str, refusal: &reader::Refusal) -> String {
    let line = given.line(refusal.section, refusal.record, refusal.item);
    let line = line.map_or(String::new(), |line| format!(":{line}"));
    format!(
        "{}{line}: {rule}\n  at: {}\n  expected: {}",
        given.name,
        place(refusal),
        expected(refusal)
    )
}

/// The place in words. Records and items count from 0.
fn place(refusal: &reader::Refusal) -> String {
    let section = refusal
        .section
        .map(|section| format!("section {}", section_name(section)));
    let record = refusal.record.map(|record| format!("record {record}"));
    let item = refusal.item.map(|item| format!("item {item}"));
    let field = Some(format!("field {}", refusal.field));
    let byte = Some(format!("byte {} of the sheet", refusal.at));
    let parts = [section, record, item, field, byte];
    parts.into_iter().flatten().collect::<Vec<_>>().join(", ")
}

/// A refusal of the expression that the caller named.
pub fn named(given: &Given, sheet: &Sheet, number: u16, refusal: Refusal) -> Failure {
    let expected = match sheet.expressions.len() {
        0 => "a sheet with expressions; this one has none".into(),
        count => format!("an expression from 0 to {}", count - 1),
    };
    given.refused(format!(
        "{refusal}\n  at: the argument {number}\n  expected: {expected}"
    ))
}

#[cfg(test)]
mod tests;
