//! The columns of both profiles, with their bounds and sketches.

use super::Draw;
use super::figures::{distinct, estimate, frequency};
use super::scalars::{Kind, kind, lookalike};
use super::sketches;
use super::style::Spread;
use crate::limits::most;
use crate::values::{Column, Scalar, Section, Sheet};

pub fn fill(draw: &mut Draw, sheet: &mut Sheet) {
    for side in [0, 1] {
        for number in draw.universe.profile(side) {
            let column = column(draw, sheet, side, number);
            sheet.columns[side].push(column);
        }
    }
}

fn column(draw: &mut Draw, sheet: &mut Sheet, side: usize, number: u16) -> Column {
    let kind = draw.universe.kind(number);
    let rows = sheet.rows[side].value;
    let (lower, upper) = bounds(draw, side, kind);
    let random = &mut draw.random;
    let frequency = frequency(random, &draw.style, rows);
    let distinct = distinct(random, &draw.style, frequency);
    Column {
        column: number,
        base: None,
        lower,
        upper,
        frequency: estimate(random, frequency),
        distinct: estimate(random, distinct),
        sketch: sketch(draw, sheet, kind, rows),
    }
}

/// The number of a sketch, which is new or another column's.
fn sketch(draw: &mut Draw, sheet: &mut Sheet, kind: Kind, rows: f64) -> Option<u16> {
    if !draw.random.chance(draw.style.sketched) {
        return None;
    }
    let known = sheet.sketches.len();
    if known == most(Section::Sketches) || known > 0 && draw.random.chance(20) {
        return Some(draw.random.below(known) as u16);
    }
    let sketch = sketches::sketch(&mut draw.random, &draw.domain, kind, rows);
    sheet.sketches.push(sketch);
    Some(known as u16)
}

type Bound = Option<Scalar>;

fn bounds(draw: &mut Draw, side: usize, kind: Kind) -> (Bound, Bound) {
    let (low, high) = interval(draw, side);
    let upper_kind = upper_kind(draw, kind);
    let lower = Some(draw.domain.scalar(kind, low));
    let upper = Some(draw.domain.scalar(upper_kind, high));
    let null = Some(Scalar::Null);
    match draw.random.weighted(&[65, 7, 3, 3, 3, 2, 4, 4, 9]) {
        0 => (lower, upper),
        1 => point(draw, kind, low),
        2 => (upper, lower),
        3 => (null, upper),
        4 => (lower, null),
        5 => (null, null),
        6 => (None, upper),
        7 => (lower, None),
        _ => (None, None),
    }
}

/// Two equal bounds; where all intervals reach over the middle, mostly there.
fn point(draw: &mut Draw, kind: Kind, low: i64) -> (Bound, Bound) {
    let steps = &draw.domain.steps;
    let number = match draw.style.spread == Spread::Wide && draw.random.chance(75) {
        true => steps[(steps.len() - 1) / 2],
        false => low,
    };
    let bound = Some(draw.domain.scalar(kind, number));
    (bound, bound)
}

/// The kind of a column's upper bound, which now and then isn't that of its lower one.
fn upper_kind(draw: &mut Draw, own: Kind) -> Kind {
    match draw.random.weighted(&[93, 5, 2]) {
        0 => own,
        1 => lookalike(&mut draw.random, own),
        _ => kind(&mut draw.random),
    }
}

/// Two numbers, the second not below the first.
fn interval(draw: &mut Draw, side: usize) -> (i64, i64) {
    let last = draw.domain.steps.len() - 1;
    let random = &mut draw.random;
    let (low, high) = match draw.style.spread {
        Spread::Wide => (random.below(last / 2 + 1), random.between(last / 2, last)),
        Spread::Free => pair(random.between(0, last), random.between(0, last)),
        Spread::Sided { left_below } => {
            let middle = last / 2;
            match (side == 0) == left_below {
                true => (random.below(middle + 1), middle),
                false => (middle + random.below(2), random.between(middle + 1, last)),
            }
        }
    };
    let steps = &draw.domain.steps;
    let (low, high) = (steps[low], steps[high]);
    match random.weighted(&[80, 10, 10]) {
        0 => (low, high),
        1 => (low, high.saturating_add(1)),
        _ => (low.saturating_sub(1), high),
    }
}

fn pair(one: usize, other: usize) -> (usize, usize) {
    (one.min(other), one.max(other))
}
