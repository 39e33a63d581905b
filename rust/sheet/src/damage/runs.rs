//! Operand runs out of order, runs that don't fill their section, and shared Ands and Ors.

use super::Copy;
use crate::values::Expression;

fn is_many(expression: &Expression) -> bool {
    matches!(expression, Expression::Nary { .. })
}

/// A run that starts elsewhere or has another length, or operands too few or too many.
pub fn shifted(copy: &mut Copy) -> bool {
    match copy.random.weighted(&[28, 22, 18, 14, 9, 9]) {
        0 => other_first(copy),
        1 => other_count(copy),
        2 => other_operands(copy),
        3 => swapped(copy),
        4 => ahead(copy),
        _ => wrapped(copy),
    }
}

fn other_first(copy: &mut Copy) -> bool {
    let Some(number) = copy.expression(is_many) else {
        return false;
    };
    let change = copy.random.pick(&[1, 2, u16::MAX, 256, 500]);
    if let Expression::Nary { first, .. } = &mut copy.sheet.expressions[number] {
        *first = first.wrapping_add(change);
    }
    copy.write();
    true
}

fn other_count(copy: &mut Copy) -> bool {
    let Some(number) = copy.expression(is_many) else {
        return false;
    };
    let change = copy.random.pick(&[1, u16::MAX, 2, 300, 0x8000]);
    if let Expression::Nary { count, .. } = &mut copy.sheet.expressions[number] {
        *count = count.wrapping_add(change);
    }
    copy.write();
    true
}

/// One operand more or less than the runs have.
fn other_operands(copy: &mut Copy) -> bool {
    let more = copy.random.chance(50);
    if more && !copy.sheet.expressions.is_empty() {
        copy.sheet.operands.push(0);
    } else if copy.sheet.operands.pop().is_none() {
        return false;
    }
    copy.write();
    true
}

/// Two runs change places, each with its own operands.
fn swapped(copy: &mut Copy) -> bool {
    let (Some(one), Some(other)) = (copy.expression(is_many), copy.expression(is_many)) else {
        return false;
    };
    let runs = [one, other].map(|number| copy.sheet.expressions[number]);
    if runs[0] == runs[1] {
        return false;
    }
    copy.sheet.expressions[one] = runs[1];
    copy.sheet.expressions[other] = runs[0];
    copy.write();
    true
}

/// An empty run that doesn't start where the runs before it end.
fn ahead(copy: &mut Copy) -> bool {
    let end = copy.sheet.operands.len() as u16;
    let first = match copy.random.chance(50) {
        true => end + 1,
        false if end > 0 => copy.random.below(end.into()) as u16,
        false => return false,
    };
    copy.sheet.expressions.push(Expression::Nary {
        op: 1,
        first,
        count: 0,
    });
    copy.write();
    true
}

/// Two runs of 32,768 operands, after which a count of sixteen bits is where it was before.
fn wrapped(copy: &mut Copy) -> bool {
    let end = copy.sheet.operands.len() as u16;
    let runs = copy.random.between(2, 3);
    for number in 0..runs {
        copy.sheet.expressions.push(Expression::Nary {
            op: 0,
            first: end.wrapping_add(0x8000 * (number as u16 % 2)),
            count: if number < 2 { 0x8000 } else { 0 },
        });
    }
    copy.write();
    true
}

/// An And or Or that is an operand twice, in one run or in two.
pub fn shared(copy: &mut Copy) -> bool {
    if copy.sheet.expressions.len() > 250 || copy.sheet.operands.len() > 505 {
        return false;
    }
    let number = match copy.expression(is_many) {
        Some(number) => number as u16,
        None => run(copy, &[]),
    };
    match copy.random.chance(50) {
        true => {
            run(copy, &[number, number]);
        }
        false => {
            run(copy, &[0, number]);
            run(copy, &[number]);
        }
    }
    copy.write();
    true
}

/// Puts an And or Or of these operands at the end.
fn run(copy: &mut Copy, operands: &[u16]) -> u16 {
    let first = copy.sheet.operands.len() as u16;
    copy.sheet.operands.extend(operands);
    copy.sheet.expressions.push(Expression::Nary {
        op: copy.random.below(2) as u8,
        first,
        count: operands.len() as u16,
    });
    (copy.sheet.expressions.len() - 1) as u16
}
