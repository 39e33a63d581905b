//! Writes a sheet as bytes, and lists the fields of those bytes.
//!
//! One walk serves both: it hands each field to a `Sink`, which keeps the bytes or notes the
//! field. The walk keeps no rule, so it writes sheets that a reader turns back, too.

use crate::limits::NONE;
use crate::values::{
    Class, Column, Estimate, Expression, Field, Holds, Key, SECTIONS, Scalar, Section, Sheet,
    Sketch, SketchItem, Table,
};

/// The length of a scalar in bytes.
pub const SCALAR_SIZE: usize = 19;

/// The length of an estimate in bytes.
pub const ESTIMATE_SIZE: usize = 26;

/// The bytes of a sheet. A length above 65,535 loses its high bits in its count.
pub fn write(sheet: &Sheet) -> Vec<u8> {
    let mut bytes = Bytes(Vec::new());
    walk(sheet, &mut bytes);
    bytes.0
}

/// The fields of the bytes that [`write()`] gives, first to last and without gaps.
pub fn fields(sheet: &Sheet) -> Vec<Field> {
    let mut notes = Notes {
        at: 0,
        fields: Vec::new(),
    };
    walk(sheet, &mut notes);
    notes.fields
}

/// The bytes of a column's record.
pub fn column_bytes(of: &Column) -> Vec<u8> {
    let mut bytes = Bytes(Vec::new());
    column(&mut bytes, Place::section(Section::LeftColumns), of);
    bytes.0
}

/// A scalar with its zeros behind it; `None` is the absent one. A float keeps its bits as they are.
pub fn scalar_bytes(s: Option<&Scalar>) -> [u8; SCALAR_SIZE] {
    let mut out = [0; SCALAR_SIZE];
    match s {
        None => out[0] = 255,
        Some(Scalar::Null) => out[0] = 0,
        Some(Scalar::Boolean(value)) => tagged(&mut out, 1, &[u8::from(*value)]),
        Some(Scalar::Int32(value)) => tagged(&mut out, 2, &value.to_le_bytes()),
        Some(Scalar::Int64(value)) => tagged(&mut out, 3, &value.to_le_bytes()),
        Some(Scalar::Float64(value)) => tagged(&mut out, 4, &value.to_bits().to_le_bytes()),
        Some(Scalar::Decimal128 {
            precision,
            scale,
            value,
        }) => {
            tagged(&mut out, 5, &[*precision, *scale]);
            out[3..19].copy_from_slice(&i128::from(*value).to_le_bytes());
        }
        Some(Scalar::Date32(value)) => tagged(&mut out, 6, &value.to_le_bytes()),
        Some(Scalar::IntervalMonthDayNano {
            months,
            days,
            nanoseconds,
        }) => {
            tagged(&mut out, 8, &months.to_le_bytes());
            out[5..9].copy_from_slice(&days.to_le_bytes());
            out[9..17].copy_from_slice(&nanoseconds.to_le_bytes());
        }
        Some(Scalar::IntervalDayTime { days, milliseconds }) => {
            tagged(&mut out, 9, &days.to_le_bytes());
            out[5..9].copy_from_slice(&milliseconds.to_le_bytes());
        }
    }
    out
}

/// Sets the tag and the bytes right behind it.
fn tagged(out: &mut [u8; SCALAR_SIZE], tag: u8, rest: &[u8]) {
    out[0] = tag;
    out[1..=rest.len()].copy_from_slice(rest);
}

/// An estimate; a bound that is not there is written as zero bytes.
pub fn estimate_bytes(e: &Estimate) -> [u8; ESTIMATE_SIZE] {
    let mut bytes = Bytes(Vec::with_capacity(ESTIMATE_SIZE));
    estimate(&mut bytes, Place::section(Section::Rows), &PLAIN_NAMES, e);
    let mut out = [0; ESTIMATE_SIZE];
    out.copy_from_slice(&bytes.0);
    out
}

/// Takes the fields of a walk, one after the other.
trait Sink {
    fn put(&mut self, place: Place, name: &'static str, holds: Holds, bytes: &[u8]);
}

/// Keeps the bytes.
struct Bytes(Vec<u8>);

impl Sink for Bytes {
    fn put(&mut self, _: Place, _: &'static str, _: Holds, bytes: &[u8]) {
        self.0.extend_from_slice(bytes);
    }
}

/// Notes each field; `at` is where the next one starts.
struct Notes {
    at: usize,
    fields: Vec<Field>,
}

impl Sink for Notes {
    fn put(&mut self, place: Place, name: &'static str, holds: Holds, bytes: &[u8]) {
        self.fields.push(Field {
            section: place.section,
            record: place.record,
            item: place.item,
            name,
            holds,
            at: self.at,
            size: bytes.len(),
        });
        self.at += bytes.len();
    }
}

/// Where in a sheet a field stands.
#[derive(Clone, Copy)]
pub(crate) struct Place {
    pub(crate) section: Section,
    pub(crate) record: Option<usize>,
    pub(crate) item: Option<usize>,
}

impl Place {
    pub(crate) fn section(section: Section) -> Self {
        Place {
            section,
            record: None,
            item: None,
        }
    }

    pub(crate) fn record(self, record: usize) -> Self {
        Place {
            record: Some(record),
            ..self
        }
    }

    pub(crate) fn item(self, item: usize) -> Self {
        Place {
            item: Some(item),
            ..self
        }
    }
}

/// The names of an estimate's five fields, which tell apart the estimates of one record.
pub(crate) struct EstimateNames {
    pub(crate) source: &'static str,
    pub(crate) flags: &'static str,
    pub(crate) value: &'static str,
    pub(crate) lower: &'static str,
    pub(crate) upper: &'static str,
}

pub(crate) const PLAIN_NAMES: EstimateNames = EstimateNames {
    source: "source",
    flags: "flags",
    value: "value",
    lower: "lower",
    upper: "upper",
};

pub(crate) const FREQUENCY_NAMES: EstimateNames = EstimateNames {
    source: "frequency source",
    flags: "frequency flags",
    value: "frequency value",
    lower: "frequency lower",
    upper: "frequency upper",
};

pub(crate) const DISTINCT_NAMES: EstimateNames = EstimateNames {
    source: "distinct source",
    flags: "distinct flags",
    value: "distinct value",
    lower: "distinct lower",
    upper: "distinct upper",
};

fn walk(sheet: &Sheet, sink: &mut impl Sink) {
    for section in SECTIONS {
        walk_section(sheet, section, sink);
    }
}

fn walk_section(sheet: &Sheet, section: Section, sink: &mut impl Sink) {
    match section {
        Section::Rows => records(sink, section, &sheet.rows, row),
        Section::Settings => records(sink, section, &sheet.settings, setting),
        Section::Sketches => records(sink, section, &sheet.sketches, sketch),
        Section::Tables => records(sink, section, &sheet.tables, table),
        Section::Keys => records(sink, section, &sheet.keys, key),
        Section::LeftColumns => records(sink, section, &sheet.columns[0], column),
        Section::RightColumns => records(sink, section, &sheet.columns[1], column),
        Section::LeftClasses => records(sink, section, &sheet.classes[0], class),
        Section::RightClasses => records(sink, section, &sheet.classes[1], class),
        Section::Expressions => records(sink, section, &sheet.expressions, expression),
        Section::Operands => records(sink, section, &sheet.operands, named),
        Section::Conjuncts => records(sink, section, &sheet.conjuncts, named),
    }
}

/// The count of a section and then its records.
fn records<T, S: Sink>(
    sink: &mut S,
    section: Section,
    records: &[T],
    each: impl Fn(&mut S, Place, &T),
) {
    let place = Place::section(section);
    put_u16(sink, place, "count", Holds::Count, records.len() as u16);
    for (number, record) in records.iter().enumerate() {
        each(sink, place.record(number), record);
    }
}

fn row<S: Sink>(sink: &mut S, place: Place, row: &Estimate) {
    estimate(sink, place, &PLAIN_NAMES, row);
}

fn setting<S: Sink>(sink: &mut S, place: Place, setting: &f64) {
    let bytes = setting.to_bits().to_le_bytes();
    sink.put(place, "setting", Holds::Setting, &bytes);
}

fn sketch<S: Sink>(sink: &mut S, place: Place, sketch: &Sketch) {
    put_u64(sink, place, "population", sketch.population);
    put_u16(sink, place, "n", Holds::Length, sketch.items.len() as u16);
    for (number, item) in sketch.items.iter().enumerate() {
        sketch_item(sink, place.item(number), item);
    }
}

fn sketch_item<S: Sink>(sink: &mut S, place: Place, item: &SketchItem) {
    put_scalar(sink, place, "scalar", Some(&item.value));
    put_u64(sink, place, "lower", item.lower);
    put_u64(sink, place, "error", item.error);
}

fn table<S: Sink>(sink: &mut S, place: Place, table: &Table) {
    put_u16(sink, place, "table", Holds::Table, table.table);
    put_u64(sink, place, "rows", table.rows.unwrap_or(u64::MAX));
}

fn key<S: Sink>(sink: &mut S, place: Place, key: &Key) {
    let (kind, own, referenced) = match *key {
        Key::Unique { key } => (1, key, (NONE, NONE)),
        Key::Foreign { key, referenced } => (2, key, referenced),
    };
    sink.put(place, "kind", Holds::KeyKind, &[kind]);
    put_u16(sink, place, "table", Holds::Label, own.0);
    put_u16(sink, place, "column name", Holds::Label, own.1);
    put_u16(sink, place, "referenced table", Holds::Label, referenced.0);
    put_u16(sink, place, "referenced name", Holds::Label, referenced.1);
}

fn column<S: Sink>(sink: &mut S, place: Place, column: &Column) {
    let base = column.base.unwrap_or((NONE, NONE));
    put_u16(sink, place, "column", Holds::Column, column.column);
    put_u16(sink, place, "base table", Holds::Label, base.0);
    put_u16(sink, place, "base name", Holds::Label, base.1);
    put_scalar(sink, place, "lower", column.lower.as_ref());
    put_scalar(sink, place, "upper", column.upper.as_ref());
    estimate(sink, place, &FREQUENCY_NAMES, &column.frequency);
    estimate(sink, place, &DISTINCT_NAMES, &column.distinct);
    let sketch = column.sketch.unwrap_or(NONE);
    put_u16(sink, place, "sketch", Holds::Sketch, sketch);
}

fn class<S: Sink>(sink: &mut S, place: Place, class: &Class) {
    put_u16(sink, place, "n", Holds::Length, class.columns.len() as u16);
    estimate(sink, place, &DISTINCT_NAMES, &class.distinct);
    for (number, column) in class.columns.iter().enumerate() {
        put_u16(sink, place.item(number), "column", Holds::Column, *column);
    }
}

fn expression<S: Sink>(sink: &mut S, place: Place, expression: &Expression) {
    let (kind, op, a, b) = match *expression {
        Expression::Literal(_) => (0, 0, 0, 0),
        Expression::Column(column) => (1, 0, column, 0),
        Expression::Unary { op, child } => (2, op, child, 0),
        Expression::Binary { op, left, right } => (3, op, left, right),
        Expression::Nary { op, first, count } => (4, op, first, count),
        Expression::Like => (5, 0, 0, 0),
        Expression::Other => (6, 0, 0, 0),
    };
    // The zeros of an expression without a scalar are the bytes of Null.
    let scalar = match expression {
        Expression::Literal(scalar) => *scalar,
        _ => Scalar::Null,
    };
    sink.put(place, "kind", Holds::Kind, &[kind]);
    sink.put(place, "op", Holds::Op, &[op]);
    put_u16(sink, place, "a", Holds::Child, a);
    put_u16(sink, place, "b", Holds::Child, b);
    put_scalar(sink, place, "scalar", Some(&scalar));
}

/// An operand or a conjunct.
fn named<S: Sink>(sink: &mut S, place: Place, expression: &u16) {
    put_u16(sink, place, "expression", Holds::Named, *expression);
}

fn estimate<S: Sink>(sink: &mut S, place: Place, names: &EstimateNames, estimate: &Estimate) {
    let lower = u8::from(estimate.lower.is_some());
    let upper = u8::from(estimate.upper.is_some());
    let flags = lower | (upper << 1);
    sink.put(place, names.source, Holds::Source, &[estimate.source]);
    sink.put(place, names.flags, Holds::Flags, &[flags]);
    put_figure(sink, place, names.value, Some(estimate.value));
    put_figure(sink, place, names.lower, estimate.lower);
    put_figure(sink, place, names.upper, estimate.upper);
}

fn put_figure<S: Sink>(sink: &mut S, place: Place, name: &'static str, figure: Option<f64>) {
    let bits = figure.map_or(0, f64::to_bits);
    sink.put(place, name, Holds::Figure, &bits.to_le_bytes());
}

fn put_scalar<S: Sink>(sink: &mut S, place: Place, name: &'static str, scalar: Option<&Scalar>) {
    sink.put(place, name, Holds::Scalar, &scalar_bytes(scalar));
}

fn put_u64<S: Sink>(sink: &mut S, place: Place, name: &'static str, value: u64) {
    sink.put(place, name, Holds::Whole, &value.to_le_bytes());
}

fn put_u16<S: Sink>(sink: &mut S, place: Place, name: &'static str, holds: Holds, value: u16) {
    sink.put(place, name, holds, &value.to_le_bytes());
}

#[cfg(test)]
mod tests;
