//! The records of a text, each read from the words of its line.

use super::error::TextError;
use super::names::{BINARY_OPS, NARY_OPS, SOURCES, UNARY_OPS};
use super::numbers;
use super::words::Words;
use crate::limits::COLUMNS;
use crate::values::{Class, Column, Estimate, Expression, Key, Scalar, SketchItem, Table};

type Taken<T> = Result<T, TextError>;

const SCALARS: [&str; 9] = [
    "null",
    "boolean",
    "int32",
    "int64",
    "float64",
    "decimal128",
    "date32",
    "interval_month_day_nano",
    "interval_day_time",
];

/// The kinds of expression that are no ops.
const PLAIN: [&str; 4] = ["literal", "column", "like", "other"];

pub(super) fn estimate(words: &mut Words) -> Taken<Estimate> {
    Ok(Estimate {
        source: words.name(&SOURCES)? as u8,
        value: words.float()?,
        lower: optional(words, "lower", Words::float)?,
        upper: optional(words, "upper", Words::float)?,
    })
}

/// What stands behind a word, if the word is there.
fn optional<'a, T>(
    words: &mut Words<'a>,
    word: &str,
    each: impl FnOnce(&mut Words<'a>) -> Taken<T>,
) -> Taken<Option<T>> {
    words.accepts(word).then(|| each(words)).transpose()
}

/// What stands behind a word that must be there.
fn behind<'a, T>(
    words: &mut Words<'a>,
    word: &str,
    each: impl FnOnce(&mut Words<'a>) -> Taken<T>,
) -> Taken<T> {
    words.keyword(word)?;
    each(words)
}

pub(super) fn scalar(words: &mut Words) -> Taken<Scalar> {
    let scalar = match SCALARS[words.name(&SCALARS)?] {
        "null" => Scalar::Null,
        "boolean" => Scalar::Boolean(words.name(&["false", "true"])? == 1),
        "int32" => Scalar::Int32(words.i32()?),
        "int64" => Scalar::Int64(words.i64()?),
        "float64" => Scalar::Float64(words.float()?),
        "decimal128" => Scalar::Decimal128 {
            value: words.i64()?,
            precision: behind(words, "precision", Words::u8)?,
            scale: behind(words, "scale", Words::u8)?,
        },
        "date32" => Scalar::Date32(words.i32()?),
        "interval_month_day_nano" => Scalar::IntervalMonthDayNano {
            months: behind(words, "months", Words::i32)?,
            days: behind(words, "days", Words::i32)?,
            nanoseconds: behind(words, "nanoseconds", Words::i64)?,
        },
        _ => Scalar::IntervalDayTime {
            days: behind(words, "days", Words::i32)?,
            milliseconds: behind(words, "milliseconds", Words::i32)?,
        },
    };
    Ok(scalar)
}

/// What stands behind `item`.
pub(super) fn sketch_item(words: &mut Words) -> Taken<SketchItem> {
    Ok(SketchItem {
        value: scalar(words)?,
        lower: behind(words, "lower", Words::u64)?,
        error: behind(words, "error", Words::u64)?,
    })
}

pub(super) fn table(words: &mut Words) -> Taken<Table> {
    let table = behind(words, "table", |words| words.u16("a table"))?;
    let rows = behind(words, "rows", table_rows)?;
    Ok(Table { table, rows })
}

/// The largest number is the bytes of an unknown one, and so it is none.
fn table_rows(words: &mut Words) -> Taken<Option<u64>> {
    if words.accepts("unknown") {
        return Ok(None);
    }
    let expected = "a whole number below 18446744073709551615";
    let rows = words.parsed(expected, |word| numbers::whole(word, u64::MAX - 1))?;
    Ok(Some(rows))
}

pub(super) fn key(words: &mut Words) -> Taken<Key> {
    if words.accepts("unique") {
        return Ok(Key::Unique {
            key: key_column(words)?,
        });
    }
    words.keyword("foreign")?;
    Ok(Key::Foreign {
        key: key_column(words)?,
        referenced: behind(words, "references", key_column)?,
    })
}

fn key_column(words: &mut Words) -> Taken<(u16, u16)> {
    let table = behind(words, "table", |words| words.u16("a table"))?;
    let name = behind(words, "name", |words| words.u16("a name"))?;
    Ok((table, name))
}

pub(super) fn column(words: &mut Words) -> Taken<Column> {
    words.keyword("column")?;
    Ok(Column {
        column: column_number(words)?,
        base: optional(words, "base", base)?,
        lower: optional(words, "lower", scalar)?,
        upper: optional(words, "upper", scalar)?,
        frequency: behind(words, "frequency", estimate)?,
        distinct: behind(words, "distinct", estimate)?,
        sketch: optional(words, "sketch", |words| words.below_none("a sketch"))?,
    })
}

fn column_number(words: &mut Words) -> Taken<u16> {
    words.parsed("a column number below 128", |word| {
        numbers::whole(word, COLUMNS - 1)
    })
}

fn base(words: &mut Words) -> Taken<(u16, u16)> {
    let table = behind(words, "table", |words| words.below_none("a table"))?;
    let name = behind(words, "name", |words| words.below_none("a name"))?;
    Ok((table, name))
}

pub(super) fn class(words: &mut Words) -> Taken<Class> {
    let distinct = behind(words, "distinct", estimate)?;
    words.keyword("columns")?;
    let mut columns = Vec::new();
    while !words.is_empty() {
        columns.push(column_number(words)?);
    }
    Ok(Class { distinct, columns })
}

/// What stands behind an expression's number. Its operands go behind those of the ones before it.
pub(super) fn expression(words: &mut Words, operands: &mut Vec<u16>) -> Taken<Expression> {
    let names = [&PLAIN[..], &UNARY_OPS, &BINARY_OPS, &NARY_OPS].concat();
    let place = words.name(&names)?;
    let name = names[place];
    let code = |ops: &[&str]| ops.iter().position(|op| *op == name).map(|op| op as u8);
    if let Some(op) = code(&UNARY_OPS) {
        let child = expression_number(words)?;
        return Ok(Expression::Unary { op, child });
    }
    if let Some(op) = code(&BINARY_OPS) {
        let left = expression_number(words)?;
        let right = expression_number(words)?;
        return Ok(Expression::Binary { op, left, right });
    }
    if let Some(op) = code(&NARY_OPS) {
        return run(words, op, operands);
    }
    plain(words, name)
}

fn plain(words: &mut Words, name: &str) -> Taken<Expression> {
    Ok(match name {
        "literal" => Expression::Literal(scalar(words)?),
        "column" => Expression::Column(column_number(words)?),
        "like" => Expression::Like,
        _ => Expression::Other,
    })
}

pub(super) fn expression_number(words: &mut Words) -> Taken<u16> {
    words.u16("an expression")
}

/// An And or an Or with the operands on its line. All operands of a text have a number of 16 bits.
fn run(words: &mut Words, op: u8, operands: &mut Vec<u16>) -> Taken<Expression> {
    let first = operands.len();
    while !words.is_empty() {
        if operands.len() == usize::from(u16::MAX) {
            return Err(words.error("the end of the line after 65535 operands in all"));
        }
        operands.push(expression_number(words)?);
    }
    let count = operands.len() - first;
    Ok(Expression::Nary {
        op,
        first: first as u16,
        count: count as u16,
    })
}
