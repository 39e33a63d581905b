//! The pieces that the answers are made of, compared on the values of a sheet.

use crate::library;
use crate::outputs::agree;
use crate::report::Report;
use oracle::analysis::{estimate_of, estimate_values, scalar_of};
use oracle::pieces;
use oracle::statistics::EncodedScalarValue;
use sheet::values::{Column, Estimate, Expression, Scalar, Sheet};
use sheet::writer::{ESTIMATE_SIZE, SCALAR_SIZE, column_bytes, estimate_bytes, scalar_bytes};
use std::cmp::Ordering;

/// At most so many scalars of a sheet, or columns of a side, are compared with each other.
const SOME: usize = 16;

/// What a piece that writes an estimate answers: its length, or 0 where there is no room.
const WRITTEN: u64 = ESTIMATE_SIZE as u64;
const NO_ROOM: u64 = 0;

/// A sheet's scalars, in its order.
pub fn scalars(sheet: &Sheet) -> Vec<Scalar> {
    let items = sheet
        .sketches
        .iter()
        .flat_map(|sketch| &sketch.items)
        .map(|item| item.value);
    let bounds = sheet
        .columns
        .iter()
        .flatten()
        .flat_map(|column| [column.lower, column.upper]);
    let literals = sheet
        .expressions
        .iter()
        .filter_map(|expression| match expression {
            Expression::Literal(value) => Some(*value),
            _ => None,
        });
    items.chain(bounds.flatten()).chain(literals).collect()
}

/// A sheet's estimates, in its order.
fn estimates(sheet: &Sheet) -> Vec<Estimate> {
    let columns = sheet
        .columns
        .iter()
        .flatten()
        .flat_map(|column| [column.frequency, column.distinct]);
    let classes = sheet.classes.iter().flatten().map(|class| class.distinct);
    sheet
        .rows
        .iter()
        .copied()
        .chain(columns)
        .chain(classes)
        .collect()
}

/// The first few from either end and from between.
fn some<T: Clone>(all: &[T]) -> Vec<T> {
    let step = all.len().div_ceil(SOME).max(1);
    all.iter().step_by(step).cloned().collect()
}

fn order_number(order: Option<Ordering>) -> u64 {
    match order {
        None => 0,
        Some(Ordering::Less) => 1,
        Some(Ordering::Equal) => 2,
        Some(Ordering::Greater) => 3,
    }
}

fn same(left: Option<f64>, right: Option<f64>) -> bool {
    left.map(f64::to_bits) == right.map(f64::to_bits)
}

/// The source's encoding with zeros behind it, to 19 bytes. A Null has none there.
fn encoding(scalar: &Scalar) -> [u8; SCALAR_SIZE] {
    let mut bytes = [0; SCALAR_SIZE];
    if let Some(encoded) = EncodedScalarValue::from_scalar(&scalar_of(scalar)) {
        let encoded = encoded.as_bytes();
        bytes[..encoded.len()].copy_from_slice(encoded);
    }
    bytes
}

fn compare_encoding(scalar: &Scalar, report: &mut Report) {
    let bytes = scalar_bytes(Some(scalar));
    let agrees = agree(&encoding(scalar), SCALAR_SIZE as u64, NO_ROOM, |out| {
        library::from_scalar(&bytes, out)
    });
    report.compared("EncodedScalarValue::from_scalar", agrees);
}

/// Scalars of every case with the ends of their ranges, most of which no sheet holds.
fn edge_scalars() -> Vec<Scalar> {
    let narrow = [0, 1, -1, i32::MIN, i32::MAX];
    let wide = [0, 1, -1, i64::MIN, i64::MAX];
    let floats = [
        0.0,
        -0.0,
        1.5,
        -1.5,
        f64::MIN,
        f64::MAX,
        f64::MIN_POSITIVE,
        -f64::MIN_POSITIVE,
        f64::INFINITY,
        f64::NEG_INFINITY,
        f64::NAN,
    ];
    // The least and the largest subnormal number, and NaNs with other signs and payloads.
    let patterns = [
        0x0000_0000_0000_0001,
        0x8000_0000_0000_0001,
        0x000f_ffff_ffff_ffff,
        0x7ff0_0000_0000_0001,
        0x7ff8_0000_0000_0001,
        0x7fff_ffff_ffff_ffff,
        0xfff0_0000_0000_0001,
        0xfff8_0000_0000_0000,
        0xffff_ffff_ffff_ffff,
    ];
    let floats = floats.into_iter().chain(patterns.map(f64::from_bits));
    let mut scalars = vec![Scalar::Null, Scalar::Boolean(false), Scalar::Boolean(true)];
    scalars.extend(narrow.map(Scalar::Int32));
    scalars.extend(narrow.map(Scalar::Date32));
    scalars.extend(wide.map(Scalar::Int64));
    scalars.extend(floats.map(Scalar::Float64));
    for value in wide {
        for precision in [0, 1, 38, u8::MAX] {
            for scale in [0, 1, 22, u8::MAX] {
                scalars.push(Scalar::Decimal128 {
                    precision,
                    scale,
                    value,
                });
            }
        }
    }
    for days in narrow {
        for other in narrow {
            scalars.push(Scalar::IntervalDayTime {
                days,
                milliseconds: other,
            });
            scalars.extend(wide.map(|nanoseconds| Scalar::IntervalMonthDayNano {
                months: other,
                days,
                nanoseconds,
            }));
        }
    }
    scalars
}

/// What no sheet asks: encodings of -0, of NaNs, of infinities and of all that is largest or least.
pub fn compare_edge_encodings(report: &mut Report) {
    for scalar in edge_scalars() {
        compare_encoding(&scalar, report);
    }
}

fn compare_scalars(sheet: &Sheet, report: &mut Report) {
    let scalars = some(&scalars(sheet));
    for left in &scalars {
        let bytes = scalar_bytes(Some(left));
        report.held(
            "a scalar's bytes are the source's encoding",
            bytes == encoding(left),
        );
        compare_encoding(left, report);
        let number = pieces::number(&scalar_of(left));
        report.compared(
            "scalar_to_f64",
            same(library::scalar_to_f64(&bytes), number),
        );
        for right in &scalars {
            let order = pieces::order(&scalar_of(left), &scalar_of(right));
            let answer = library::scalar_order(&bytes, &scalar_bytes(Some(right)));
            report.compared("scalar_order", answer == order_number(order));
        }
    }
}

fn bounds(column: &Column) -> Option<[Scalar; 2]> {
    Some([column.lower?, column.upper?])
}

/// The part of one range that another's ends mark off, whether or not they overlap.
fn compare_fraction(range: [Scalar; 2], overlap: [Scalar; 2], report: &mut Report) {
    let all = [range[0], range[1], overlap[0], overlap[1]];
    let values = all.map(|scalar| scalar_of(&scalar));
    let bytes = all.map(|scalar| scalar_bytes(Some(&scalar))).concat();
    let expected = pieces::fraction(values.each_ref());
    let answer = library::fraction(&bytes);
    report.compared("scalar_interval_fraction", same(answer, expected));
}

fn compare_columns(left: &Column, right: &Column, report: &mut Report) {
    let (distinct, disjoint) = pieces::intersection(left, right);
    let columns = [column_bytes(left), column_bytes(right)].concat();
    let answer = library::intersection(&columns, [left.distinct.value, right.distinct.value]);
    let agrees = answer.0.to_bits() == distinct.to_bits() && answer.1 == disjoint;
    report.compared("estimated_distinct_intersection", agrees);
    if let (Some(left), Some(right)) = (bounds(left), bounds(right)) {
        compare_fraction(left, right, report);
        compare_fraction(right, left, report);
    }
}

fn compare_ranges(sheet: &Sheet, report: &mut Report) {
    let [left, right] = &sheet.columns;
    for left in some(left) {
        for right in some(right) {
            compare_columns(&left, &right, report);
        }
    }
}

/// What no sheet asks: decimals 1..0 with the overlap 0..0, of which the source makes -0.
pub fn compare_minus_zero(report: &mut Report) {
    let decimal = |value| Scalar::Decimal128 {
        precision: 10,
        scale: 0,
        value,
    };
    compare_fraction([decimal(1), decimal(0)], [decimal(0); 2], report);
}

fn compare_estimates(sheet: &Sheet, report: &mut Report) {
    let all = estimates(sheet);
    for pair in all.windows(2) {
        let (left, right) = (estimate_of(&pair[0]), estimate_of(&pair[1]));
        let (left_bytes, right_bytes) = (estimate_bytes(&pair[0]), estimate_bytes(&pair[1]));
        let expected = estimate_bytes(&estimate_values(&pieces::larger(&left, &right)));
        let agrees = agree(&expected, WRITTEN, NO_ROOM, |out| {
            library::max_by_value(&left_bytes, &right_bytes, out)
        });
        report.compared("max_by_value", agrees);
        let expected = estimate_bytes(&estimate_values(&pieces::smaller(&left, &right)));
        let agrees = agree(&expected, WRITTEN, NO_ROOM, |out| {
            library::min_by_value(&left_bytes, &right_bytes, out)
        });
        report.compared("min_by_value", agrees);
        let expected = estimate_bytes(&estimate_values(&pieces::derived(&left)));
        let agrees = agree(&expected, WRITTEN, NO_ROOM, |out| {
            library::derived(&left_bytes, out)
        });
        report.compared("Estimate::derived", agrees);
    }
}

/// The powers that the join took, and the roots on the way.
pub fn compare_powers(taken: &[(f64, f64)], report: &mut Report) {
    for (x, f) in taken.iter().copied() {
        let rule = oracle::power::power(x, f);
        report.compared(
            "the power",
            library::power(x, f).to_bits() == rule.to_bits(),
        );
        let mut root = x;
        for _ in 0..4 {
            let next = root.sqrt();
            report.compared("the root", library::root(root).to_bits() == next.to_bits());
            root = next;
        }
    }
}

pub fn compare(sheet: &Sheet, report: &mut Report) {
    compare_scalars(sheet, report);
    compare_ranges(sheet, report);
    compare_estimates(sheet, report);
}
