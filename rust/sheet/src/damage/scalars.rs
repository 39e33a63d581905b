//! Scalars that break a rule.

use super::{Copy, NOWHERE};
use crate::limits::{LARGEST_FLOAT, SMALLEST_FLOAT};
use crate::random::Random;
use crate::values::{Expression, Field, Holds, Scalar, Section};
use crate::writer::{SCALAR_SIZE, scalar_bytes};

type Bytes = [u8; SCALAR_SIZE];

pub fn scalar(copy: &mut Copy) -> bool {
    let Some(field) = field(copy) else {
        return false;
    };
    let bytes = match copy.random.weighted(&[20, 10, 70]) {
        0 => behind(copy, field),
        1 => other_tag(copy, field),
        _ => broken(&mut copy.random),
    };
    copy.put(field, &bytes)
}

/// A bound, a sketch's value or a literal; seldom a scalar that isn't used.
fn field(copy: &mut Copy) -> Option<Field> {
    let literal: Vec<bool> = copy
        .sheet
        .expressions
        .iter()
        .map(|expression| matches!(expression, Expression::Literal(_)))
        .collect();
    let unused_too = copy.random.chance(8);
    copy.field(|field| {
        let used = field.section != Section::Expressions
            || field.record.is_some_and(|record| literal[record]);
        field.holds == Holds::Scalar && (used || unused_too)
    })
}

/// How many bytes belong to a tag, the tag included.
fn size(tag: u8) -> usize {
    match tag {
        1 => 2,
        2 | 6 => 5,
        3 | 4 => 9,
        5 => 19,
        8 => 17,
        9 => 9,
        _ => 1,
    }
}

/// The scalar that is there, with a byte behind its own that isn't zero.
fn behind(copy: &mut Copy, field: Field) -> Bytes {
    let mut bytes = [0; SCALAR_SIZE];
    bytes.copy_from_slice(copy.bytes_of(field));
    let size = size(bytes[0]);
    let at = match size < SCALAR_SIZE {
        true => copy
            .random
            .pick(&[size, SCALAR_SIZE - 1, (size + SCALAR_SIZE) / 2]),
        false => SCALAR_SIZE - 1,
    };
    bytes[at] ^= 1 << copy.random.below(8);
    bytes
}

/// The scalar that is there under another tag.
fn other_tag(copy: &mut Copy, field: Field) -> Bytes {
    let mut bytes = [0; SCALAR_SIZE];
    bytes.copy_from_slice(copy.bytes_of(field));
    bytes[0] = match copy.random.chance(50) {
        true => copy.random.below(12) as u8,
        false => copy.random.word() as u8,
    };
    bytes
}

/// A scalar of its own with one thing wrong. Some are only wrong in a sketch or a literal.
fn broken(random: &mut Random) -> Bytes {
    match random.weighted(&[8, 10, 8, 10, 4, 20, 12, 10, 12, 6]) {
        0 => with_tag(7),
        1 => with_tag(random.between(10, 254) as u8),
        2 => scalar_bytes(None),
        3 => scalar_bytes(Some(&Scalar::Null)),
        4 => absent_with_more(random),
        5 => scalar_bytes(Some(&Scalar::Float64(bad_float(random)))),
        6 => scalar_bytes(Some(&bad_decimal(random))),
        7 => wide_decimal(random),
        8 => padded(random),
        _ => boolean(random),
    }
}

fn with_tag(tag: u8) -> Bytes {
    let mut bytes = [0; SCALAR_SIZE];
    bytes[0] = tag;
    bytes
}

fn absent_with_more(random: &mut Random) -> Bytes {
    let mut bytes = scalar_bytes(None);
    bytes[random.between(1, SCALAR_SIZE - 1)] = 1;
    bytes
}

fn bad_float(random: &mut Random) -> f64 {
    random.pick_of_both(
        &NOWHERE,
        &[
            SMALLEST_FLOAT.next_down(),
            -SMALLEST_FLOAT.next_down(),
            SMALLEST_FLOAT / 2.0,
            LARGEST_FLOAT.next_up(),
            -LARGEST_FLOAT.next_up(),
            LARGEST_FLOAT * 2.0,
        ],
    )
}

fn bad_decimal(random: &mut Random) -> Scalar {
    let (precision, scale) = random.pick(&[
        (0, 0),
        (0, 22),
        (39, 2),
        (255, 2),
        (10, 23),
        (38, 23),
        (10, 255),
        (1, 128),
    ]);
    Scalar::Decimal128 {
        precision,
        scale,
        value: random.pick(&[0, 1, -1, 250, i64::MIN]),
    }
}

/// A decimal whose upper eight bytes don't continue its sign.
fn wide_decimal(random: &mut Random) -> Bytes {
    let value = random.pick(&[0, 5, -5, i64::MAX, i64::MIN]);
    let mut bytes = scalar_bytes(Some(&Scalar::Decimal128 {
        precision: 10,
        scale: 2,
        value,
    }));
    match random.chance(40) {
        true => bytes[11..].iter_mut().for_each(|byte| *byte = !*byte),
        false => bytes[random.between(11, 18)] ^= 1 << random.below(8),
    }
    bytes
}

/// A sound scalar with a byte too many.
fn padded(random: &mut Random) -> Bytes {
    let scalar = random.pick(&[
        Scalar::Null,
        Scalar::Boolean(true),
        Scalar::Int32(-7),
        Scalar::Int64(40),
        Scalar::Float64(2.5),
        Scalar::Date32(9),
        Scalar::IntervalMonthDayNano {
            months: 1,
            days: 2,
            nanoseconds: 3,
        },
        Scalar::IntervalDayTime {
            days: 4,
            milliseconds: -5,
        },
    ]);
    let mut bytes = scalar_bytes(Some(&scalar));
    let end = size(bytes[0]);
    bytes[random.between(end, SCALAR_SIZE - 1)] = random.pick(&[1, 128, 255]);
    bytes
}

fn boolean(random: &mut Random) -> Bytes {
    let mut bytes = scalar_bytes(Some(&Scalar::Boolean(true)));
    bytes[1] = random.pick(&[2, 3, 128, 255]);
    bytes
}
