//! The three answers, and their bytes written and read (document 01, "Three answers").
//!
//! A predicate's answer is an [`Estimate`], and a split's the expression numbers of its conjuncts.
//! The readers keep what the bytes alone can show: each part is there whole and nothing behind the
//! last, one record of figures, known sources, flags and bytes for yes and no, zero bytes for an
//! absent bound, ascending columns. A figure is taken as it stands, whatever its range.

use crate::reader::{decode_boolean, take};
use crate::values::{Class, Estimate};
use crate::writer::{ESTIMATE_SIZE, estimate_bytes};

/// What an equality tells of its left column: the source's `LeftEqualityCoverage`.
#[derive(Debug, Clone, PartialEq)]
pub struct Coverage {
    /// The left column.
    pub column: u16,
    /// In the source's order: `input_distinct`, `input_non_null_fraction`,
    /// `intersection_distinct`, `non_null_match_probability`, `null_match_probability`.
    pub figures: [f64; 5],
    /// Whether the equality is SQL's own, which no null passes: `ordinary_non_null`.
    pub ordinary: bool,
}

/// A join's answer.
#[derive(Debug, Clone, PartialEq)]
pub struct Join {
    /// Of all pairs of a left and a right row, the part that the join keeps.
    pub selectivity: Estimate,
    /// Of the left rows, the part that finds a right row: document 01's match estimate.
    pub matching: Estimate,
    /// The selectivity of the conjuncts that equate no columns.
    pub residual: f64,
    /// The blocks with their distincts, ascending by the column at their root.
    pub classes: Vec<Class>,
    /// One for each equality that covers a left column, in the order of the edges.
    pub coverages: Vec<Coverage>,
    /// The columns that no row of the join has a null in, ascending.
    pub non_null: Vec<u16>,
}

fn put_count(out: &mut Vec<u8>, count: usize) {
    out.extend((count as u16).to_le_bytes());
}

fn put_numbers(out: &mut Vec<u8>, numbers: &[u16]) {
    for number in numbers {
        out.extend(number.to_le_bytes());
    }
}

fn put_class(out: &mut Vec<u8>, class: &Class) {
    put_count(out, class.columns.len());
    out.extend(estimate_bytes(&class.distinct));
    put_numbers(out, &class.columns);
}

fn put_coverage(out: &mut Vec<u8>, coverage: &Coverage) {
    out.extend(coverage.column.to_le_bytes());
    for figure in coverage.figures {
        out.extend(figure.to_le_bytes());
    }
    out.push(u8::from(coverage.ordinary));
}

impl Join {
    /// A join's answer in bytes. A length above 65,535 loses its high bits in its count.
    pub fn bytes(&self) -> Vec<u8> {
        let mut out = Vec::new();
        put_count(&mut out, 1);
        out.extend(estimate_bytes(&self.selectivity));
        out.extend(estimate_bytes(&self.matching));
        out.extend(self.residual.to_le_bytes());
        put_count(&mut out, self.classes.len());
        self.classes
            .iter()
            .for_each(|class| put_class(&mut out, class));
        put_count(&mut out, self.coverages.len());
        self.coverages
            .iter()
            .for_each(|coverage| put_coverage(&mut out, coverage));
        put_count(&mut out, self.non_null.len());
        put_numbers(&mut out, &self.non_null);
        out
    }

    /// The join that has these bytes, or none where they are no join's answer.
    pub fn read(bytes: &[u8]) -> Option<Join> {
        let mut rest = bytes;
        if take_count(&mut rest)? != 1 {
            return None;
        }
        let join = Join {
            selectivity: take_estimate(&mut rest)?,
            matching: take_estimate(&mut rest)?,
            residual: take_figure(&mut rest)?,
            classes: take_section(&mut rest, take_class)?,
            coverages: take_section(&mut rest, take_coverage)?,
            non_null: take_section(&mut rest, take_number)?,
        };
        (rest.is_empty() && ascending(&join.non_null)).then_some(join)
    }
}

/// A predicate's answer in bytes.
pub fn predicate_bytes(predicate: &Estimate) -> Vec<u8> {
    estimate_bytes(predicate).to_vec()
}

/// A split's answer in bytes. A length above 65,535 loses its high bits in its count.
pub fn split_bytes(split: &[u16]) -> Vec<u8> {
    let mut out = Vec::new();
    put_count(&mut out, split.len());
    put_numbers(&mut out, split);
    out
}

impl Estimate {
    /// The estimate that has these 26 bytes, a predicate's answer, or none where they are none's.
    pub fn read(bytes: &[u8]) -> Option<Estimate> {
        let bytes: &[u8; ESTIMATE_SIZE] = bytes.try_into().ok()?;
        take_estimate(&mut &bytes[..])
    }
}

/// The split that has these bytes, or none where they are no split's answer.
pub fn read_split(bytes: &[u8]) -> Option<Vec<u16>> {
    let mut rest = bytes;
    let split = take_section(&mut rest, take_number)?;
    rest.is_empty().then_some(split)
}

fn ascending(numbers: &[u16]) -> bool {
    numbers.is_sorted_by(|one, next| one < next)
}

fn take_number(rest: &mut &[u8]) -> Option<u16> {
    take(rest).map(u16::from_le_bytes)
}

fn take_count(rest: &mut &[u8]) -> Option<usize> {
    take_number(rest).map(usize::from)
}

fn take_figure(rest: &mut &[u8]) -> Option<f64> {
    take(rest).map(f64::from_le_bytes)
}

/// A bound inside, or none there if it is absent.
fn take_bound(rest: &mut &[u8], present: bool) -> Option<Option<f64>> {
    let bound = take_figure(rest)?;
    match present {
        true => Some(Some(bound)),
        false => (bound.to_bits() == 0).then_some(None),
    }
}

fn take_estimate(rest: &mut &[u8]) -> Option<Estimate> {
    let [source, flags] = take(rest)?;
    if source > 4 || flags > 3 {
        return None;
    }
    Some(Estimate {
        source,
        value: take_figure(rest)?,
        lower: take_bound(rest, flags & 1 != 0)?,
        upper: take_bound(rest, flags & 2 != 0)?,
    })
}

/// So many records, or none where one of them is not there.
fn take_records<T>(
    rest: &mut &[u8],
    count: usize,
    each: impl Fn(&mut &[u8]) -> Option<T>,
) -> Option<Vec<T>> {
    (0..count).map(|_| each(rest)).collect()
}

/// A count and its records.
fn take_section<T>(rest: &mut &[u8], each: impl Fn(&mut &[u8]) -> Option<T>) -> Option<Vec<T>> {
    let count = take_count(rest)?;
    take_records(rest, count, each)
}

fn take_class(rest: &mut &[u8]) -> Option<Class> {
    let count = take_count(rest)?;
    let distinct = take_estimate(rest)?;
    let columns = take_records(rest, count, take_number)?;
    ascending(&columns).then_some(Class { distinct, columns })
}

fn take_coverage(rest: &mut &[u8]) -> Option<Coverage> {
    let column = take_number(rest)?;
    let mut figures = [0.0; 5];
    for figure in &mut figures {
        *figure = take_figure(rest)?;
    }
    Some(Coverage {
        column,
        figures,
        ordinary: decode_boolean(take(rest)?)?,
    })
}

#[cfg(test)]
mod tests;
