//! Unknown codes, and fields that have to be zero or FFFF and aren't.

use super::Copy;
use crate::limits;
use crate::random::Random;
use crate::values::{Expression, Holds, Key, Section};

const NONE: usize = limits::NONE as usize;

/// A byte from `end` on.
fn unknown(random: &mut Random, end: usize) -> u8 {
    match random.chance(50) {
        true => end as u8,
        false => random.between(end, 255) as u8,
    }
}

pub fn source(copy: &mut Copy) -> bool {
    let Some(field) = copy.field_that(Holds::Source) else {
        return false;
    };
    let code = unknown(&mut copy.random, 5);
    copy.put(field, &[code])
}

pub fn flags(copy: &mut Copy) -> bool {
    let Some(field) = copy.field_that(Holds::Flags) else {
        return false;
    };
    let flags = match copy.random.chance(60) {
        true => unknown(&mut copy.random, 4),
        false => copy.bytes[field.at] | copy.random.pick(&[4, 8, 128]),
    };
    copy.put(field, &[flags])
}

/// An unknown kind, or a unique key that refers to something.
pub fn key(copy: &mut Copy) -> bool {
    if copy.random.chance(50) {
        let Some(field) = copy.field_that(Holds::KeyKind) else {
            return false;
        };
        let kind = copy.random.pick(&[0, 3, 4, 128, 255, 1]);
        return copy.put(field, &[kind]);
    }
    let unique: Vec<bool> = copy
        .sheet
        .keys
        .iter()
        .map(|key| matches!(key, Key::Unique { .. }))
        .collect();
    let field = copy.field(|field| {
        let refers = ["referenced table", "referenced name"].contains(&field.name);
        field.section == Section::Keys && refers && unique[field.record.unwrap_or(0)]
    });
    let Some(field) = field else {
        return false;
    };
    let label = copy.random.pick(&[0, 1, NONE - 1, 0x00ff, 0xff00]);
    copy.put_u16(field, label)
}

/// Half a base column.
pub fn base(copy: &mut Copy) -> bool {
    let field = copy.field(|field| ["base table", "base name"].contains(&field.name));
    let Some(field) = field else {
        return false;
    };
    let label = match copy.u16_of(field) == NONE {
        true => copy.random.pick(&[0, 3, NONE - 1]),
        false => NONE,
    };
    copy.put_u16(field, label)
}

/// An expression of an unknown kind or op, or of another kind than its fields are for.
pub fn expression(copy: &mut Copy) -> bool {
    let holds = copy.random.pick(&[Holds::Kind, Holds::Op, Holds::Op]);
    let Some(field) = copy.field_that(holds) else {
        return false;
    };
    let code = match (holds, copy.random.chance(65)) {
        (Holds::Kind, true) => unknown(&mut copy.random, 7),
        (Holds::Kind, false) => copy.random.below(7) as u8,
        _ => {
            let end = ops(&copy.sheet.expressions[field.record.unwrap_or(0)]);
            unknown(&mut copy.random, end)
        }
    };
    copy.put(field, &[code])
}

/// How many ops an expression may have; one without ops has a zero.
fn ops(expression: &Expression) -> usize {
    match expression {
        Expression::Unary { .. } => 4,
        Expression::Binary { .. } => 11,
        Expression::Nary { .. } => 2,
        _ => 1,
    }
}

/// A field of an expression that isn't used and isn't zero.
pub fn unused(copy: &mut Copy) -> bool {
    let Some(number) = copy.expression(|_| true) else {
        return false;
    };
    let unused: &[&str] = match copy.sheet.expressions[number] {
        Expression::Literal(_) => &["op", "a", "b"],
        Expression::Column(_) => &["op", "b", "scalar"],
        Expression::Unary { .. } => &["b", "scalar"],
        Expression::Binary { .. } | Expression::Nary { .. } => &["scalar"],
        Expression::Like | Expression::Other => &["op", "a", "b", "scalar"],
    };
    let name = copy.random.pick(unused);
    let Some(field) = copy.expression_field(number, name) else {
        return false;
    };
    let at = field.at + copy.random.below(field.size);
    copy.bytes[at] = copy.random.pick(&[1, 2, 128, 255]);
    true
}
