//! What document 01 expects where a sheet is refused.

use sheet::limits::counts;
use sheet::reader::Refusal;
use sheet::values::Section;

/// Said of a refusal that no reader gives.
const UNKNOWN: &str = "what document 01 says of this field";

/// What should have stood there.
pub fn expected(refusal: &Refusal) -> String {
    match refusal.number {
        2 => format!("the whole {}, before the sheet ends", refusal.field),
        3 => count(refusal),
        _ => rule(refusal).into(),
    }
}

fn count(refusal: &Refusal) -> String {
    let (field, section) = (refusal.field, refusal.section);
    match (field, section) {
        ("n", Some(Section::Sketches)) => "at most 64 items, and at most 512 in all".into(),
        ("n", _) => "2 to 128 columns".into(),
        (_, Some(section)) => {
            let (fewest, most) = counts(section).into_inner();
            match fewest == most {
                true => format!("{most} records"),
                false => format!("at most {most} records"),
            }
        }
        _ => UNKNOWN.into(),
    }
}

fn rule(refusal: &Refusal) -> &'static str {
    match refusal.number {
        1 => "at most 65535 bytes",
        4 => figure(refusal),
        5 => scalar(refusal),
        6 => code(refusal.section, refusal.field),
        7 => order(refusal.field),
        8 => named(refusal),
        9 => run(refusal.field),
        10 => "the sheet's end",
        _ => UNKNOWN,
    }
}

fn figure(refusal: &Refusal) -> &'static str {
    match (refusal.section, refusal.record) {
        (Some(Section::Tables), _) => "at most 2^53, or all ones for unknown",
        (Some(Section::Sketches), _) => "at most 2^53",
        (Some(Section::Settings), Some(0..=2)) => "0, or a number from 2^-64 to 1",
        _ => "0, or a number from 2^-64 to 2^64",
    }
}

fn scalar(refusal: &Refusal) -> &'static str {
    match refusal.section {
        Some(Section::Sketches) => {
            "a scalar that is not Null (a float 0 or of size 2^-400 to 2^400, a decimal of \
             precision 1 to 38 and scale 0 to 22)"
        }
        Some(Section::Expressions) => {
            "a scalar (a float 0 or of size 2^-400 to 2^400, a decimal of precision 1 to 38 and \
             scale 0 to 22)"
        }
        _ => {
            "a scalar or the absent one (a float 0 or of size 2^-400 to 2^400, a decimal of \
             precision 1 to 38 and scale 0 to 22)"
        }
    }
}

fn code(section: Option<Section>, field: &str) -> &'static str {
    match (section, field) {
        (Some(Section::Keys), "kind") => "1 (unique) or 2 (foreign)",
        (Some(Section::Expressions), "kind") => "a kind from 0 to 6",
        (_, "op") => "0 to 3 of a unary, 0 to 10 of a binary, 0 or 1 of an n-ary kind, 0 elsewhere",
        (_, "a" | "b") => "0, since this kind does not use the field",
        (_, "scalar") => "zero bytes, since only a literal has a scalar",
        (_, "referenced table" | "referenced name") => "hex FFFF, since a unique key has none",
        (_, "base name") => "hex FFFF exactly where the base table is FFFF",
        (_, field) => part(field),
    }
}

/// A part of an estimate.
fn part(field: &str) -> &'static str {
    match field.rsplit(' ').next() {
        Some("source") => "a source from 0 to 4",
        Some("flags") => "flags from 0 to 3",
        Some("lower" | "upper") => "zero bytes, since the flags say that this bound is absent",
        _ => UNKNOWN,
    }
}

fn order(field: &str) -> &'static str {
    match field {
        "table" => "a table above the one before it",
        "column" => "a column below 128, in a list above the one before it",
        "a" => "a column below 128",
        "scalar" => "a value that no item before it has",
        _ => UNKNOWN,
    }
}

fn named(refusal: &Refusal) -> &'static str {
    match (refusal.section, refusal.field) {
        (_, "sketch") => "a sketch of this sheet, or hex FFFF for none",
        (Some(Section::Expressions), "a" | "b") => "an expression before this one",
        (Some(Section::Operands), _) => "an expression before the one that has this operand",
        (Some(Section::Conjuncts), _) => "an expression of this sheet",
        _ => UNKNOWN,
    }
}

fn run(field: &str) -> &'static str {
    match field {
        "a" => "the operand behind the run before",
        "count" => "as many operands as all runs have",
        "expression" => "an And or Or that is no operand yet",
        _ => UNKNOWN,
    }
}

#[cfg(test)]
mod tests;
