//! Writes a sheet as text.
//!
//! Of an accepted sheet every line is read back as it was. A code that no rule allows is written
//! with a question mark, and no text is read with one.

use super::names::{BINARY_OPS, NARY_OPS, SETTINGS, SOURCES, UNARY_OPS, heading};
use crate::values::{
    Class, Column, Estimate, Expression, Key, Scalar, Section, Sheet, Sketch, SketchItem, Table,
};

/// Floats of these sizes are written without an exponent.
const PLAIN_SIZES: std::ops::Range<f64> = 1e-5..1e16;

/// The text of a sheet: sections without records are left out.
pub fn print(sheet: &Sheet) -> String {
    let [left, right] = &sheet.columns;
    let [left_classes, right_classes] = &sheet.classes;
    let sections = [
        section(Section::Rows, rows(&sheet.rows)),
        section(Section::Settings, settings(&sheet.settings)),
        section(Section::Sketches, sketches(&sheet.sketches)),
        section(Section::Tables, each(&sheet.tables, table)),
        section(Section::Keys, each(&sheet.keys, key)),
        section(Section::LeftColumns, each(left, column)),
        section(Section::RightColumns, each(right, column)),
        section(Section::LeftClasses, each(left_classes, class)),
        section(Section::RightClasses, each(right_classes, class)),
        section(Section::Expressions, expressions(sheet)),
        section(Section::Conjuncts, each(&sheet.conjuncts, u16::to_string)),
    ];
    let sections: Vec<_> = sections.into_iter().flatten().collect();
    sections.join("\n")
}

/// A heading and its lines, if there are any.
fn section(section: Section, lines: Vec<String>) -> Option<String> {
    let text = format!("{}\n{}\n", heading(section), lines.join("\n"));
    (!lines.is_empty()).then_some(text)
}

fn each<T>(records: &[T], line: impl Fn(&T) -> String) -> Vec<String> {
    records.iter().map(line).collect()
}

fn rows(rows: &[Estimate; 2]) -> Vec<String> {
    let [left, right] = rows.each_ref().map(estimate);
    vec![format!("left {left}"), format!("right {right}")]
}

fn settings(settings: &[f64; 5]) -> Vec<String> {
    let named = SETTINGS.iter().zip(settings);
    named
        .map(|(name, setting)| format!("{name} {}", number(*setting)))
        .collect()
}

fn sketches(sketches: &[Sketch]) -> Vec<String> {
    let numbered = sketches.iter().enumerate();
    numbered.flat_map(sketch).collect()
}

fn sketch((number, sketch): (usize, &Sketch)) -> Vec<String> {
    let mut lines = vec![format!("{number}: population {}", sketch.population)];
    lines.extend(sketch.items.iter().map(sketch_item));
    lines
}

fn sketch_item(item: &SketchItem) -> String {
    let value = scalar(&item.value);
    format!("  item {value} lower {} error {}", item.lower, item.error)
}

fn table(table: &Table) -> String {
    let rows = table.rows.map_or("unknown".into(), |rows| rows.to_string());
    format!("table {} rows {rows}", table.table)
}

fn key(key: &Key) -> String {
    match key {
        Key::Unique { key } => format!("unique {}", named(*key)),
        Key::Foreign { key, referenced } => {
            let (key, referenced) = (named(*key), named(*referenced));
            format!("foreign {key} references {referenced}")
        }
    }
}

fn named((table, name): (u16, u16)) -> String {
    format!("table {table} name {name}")
}

fn column(column: &Column) -> String {
    let base = column.base.map(|base| format!(" base {}", named(base)));
    let bound = |word: &str, bound: &Option<Scalar>| {
        let bound = bound.as_ref();
        bound.map(|bound| format!(" {word} {}", scalar(bound)))
    };
    let sketch = column.sketch.map(|sketch| format!(" sketch {sketch}"));
    format!(
        "column {}{}{}{} frequency {} distinct {}{}",
        column.column,
        base.unwrap_or_default(),
        bound("lower", &column.lower).unwrap_or_default(),
        bound("upper", &column.upper).unwrap_or_default(),
        estimate(&column.frequency),
        estimate(&column.distinct),
        sketch.unwrap_or_default(),
    )
}

fn class(class: &Class) -> String {
    let distinct = estimate(&class.distinct);
    format!("distinct {distinct} columns{}", numbers(&class.columns))
}

/// The numbers, each behind a blank.
fn numbers(numbers: &[u16]) -> String {
    numbers.iter().map(|number| format!(" {number}")).collect()
}

fn expressions(sheet: &Sheet) -> Vec<String> {
    let numbered = sheet.expressions.iter().enumerate();
    numbered
        .map(|(number, of)| expression_line(sheet, number, of))
        .collect()
}

/// The line of the expression with this number, if the sheet has it.
pub fn expression(sheet: &Sheet, number: u16) -> Option<String> {
    let number = usize::from(number);
    let of = sheet.expressions.get(number)?;
    Some(expression_line(sheet, number, of))
}

fn expression_line(sheet: &Sheet, number: usize, of: &Expression) -> String {
    let record = match *of {
        Expression::Literal(value) => format!("literal {}", scalar(&value)),
        Expression::Column(column) => format!("column {column}"),
        Expression::Unary { op, child } => format!("{} {child}", name(&UNARY_OPS, op)),
        Expression::Binary { op, left, right } => {
            format!("{} {left} {right}", name(&BINARY_OPS, op))
        }
        Expression::Nary { op, first, count } => {
            let operands = run(&sheet.operands, first, count);
            format!("{}{}", name(&NARY_OPS, op), numbers(operands))
        }
        Expression::Like => "like".into(),
        Expression::Other => "other".into(),
    };
    format!("{number}: {record}")
}

/// A run of operands, as far as there are any.
fn run(operands: &[u16], first: u16, count: u16) -> &[u16] {
    let rest = operands.get(usize::from(first)..).unwrap_or_default();
    &rest[..rest.len().min(usize::from(count))]
}

/// The name of a code.
fn name(names: &[&str], code: u8) -> String {
    let name = names.get(usize::from(code));
    name.map_or(format!("?{code}"), |name| name.to_string())
}

/// The name of an estimate's source.
pub fn source_name(source: u8) -> String {
    name(&SOURCES, source)
}

/// An estimate: source, value and the bounds that there are.
pub fn estimate(estimate: &Estimate) -> String {
    let bound = |word: &str, bound: Option<f64>| {
        let text = bound.map(|bound| format!(" {word} {}", number(bound)));
        text.unwrap_or_default()
    };
    format!(
        "{} {}{}{}",
        source_name(estimate.source),
        number(estimate.value),
        bound("lower", estimate.lower),
        bound("upper", estimate.upper),
    )
}

fn scalar(scalar: &Scalar) -> String {
    match scalar {
        Scalar::Null => "null".into(),
        Scalar::Boolean(value) => format!("boolean {value}"),
        Scalar::Int32(value) => format!("int32 {value}"),
        Scalar::Int64(value) => format!("int64 {value}"),
        Scalar::Float64(value) => format!("float64 {}", number(*value)),
        Scalar::Decimal128 {
            precision,
            scale,
            value,
        } => format!("decimal128 {value} precision {precision} scale {scale}"),
        Scalar::Date32(value) => format!("date32 {value}"),
        Scalar::IntervalMonthDayNano {
            months,
            days,
            nanoseconds,
        } => {
            format!("interval_month_day_nano months {months} days {days} nanoseconds {nanoseconds}")
        }
        Scalar::IntervalDayTime { days, milliseconds } => {
            format!("interval_day_time days {days} milliseconds {milliseconds}")
        }
    }
}

/// The shortest decimal number that is read back as this float.
pub fn number(value: f64) -> String {
    match value == 0.0 || PLAIN_SIZES.contains(&value.abs()) {
        true => format!("{value}"),
        false => format!("{value:e}"),
    }
}
