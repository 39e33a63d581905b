//! Shapes that chance alone would seldom give, put onto the ends of an equality.

use super::Draw;
use super::edges::Edge;
use super::figures::figure;
use crate::random::Random;
use crate::values::{Column, Scalar, Sheet};

pub fn fill(draw: &mut Draw, sheet: &mut Sheet) {
    if draw.random.chance(7) {
        null_and_disjoint(draw, sheet);
    }
    if draw.random.chance(14) {
        placed(draw, sheet);
    }
    if draw.random.chance(8) {
        reversed(draw, sheet);
    }
    if draw.random.chance(45) {
        nulls_on_both_sides(draw, sheet);
    }
    if draw.random.chance(6) {
        long_power(draw, sheet);
    }
}

/// The places of the two columns of an equality between the inputs.
fn ends(draw: &mut Draw, sheet: &Sheet) -> Option<[usize; 2]> {
    let edge = draw.random.pick_any(&draw.edges)?;
    places(draw, sheet, &edge)
}

fn places(draw: &Draw, sheet: &Sheet, edge: &Edge) -> Option<[usize; 2]> {
    let (left, right) = edge.oriented(&draw.universe)?;
    Some([place(sheet, 0, left)?, place(sheet, 1, right)?])
}

fn place(sheet: &Sheet, side: usize, number: u16) -> Option<usize> {
    let mut columns = sheet.columns[side].iter();
    columns.position(|column| column.column == number)
}

/// Four neighbouring steps of the domain, as scalars of one kind.
fn four(draw: &mut Draw, sheet: &Sheet, ends: [usize; 2]) -> [Scalar; 4] {
    let kind = draw.universe.kind(sheet.columns[0][ends[0]].column);
    let steps = &draw.domain.steps;
    let start = draw.random.below(steps.len() - 3);
    [0, 1, 2, 3].map(|more| draw.domain.scalar(kind, steps[start + more]))
}

fn set(column: &mut Column, lower: Scalar, upper: Scalar) {
    column.lower = Some(lower);
    column.upper = Some(upper);
}

/// One column ends below the start of the other, and a bound that doesn't matter is Null.
fn null_and_disjoint(draw: &mut Draw, sheet: &mut Sheet) {
    let Some(ends) = ends(draw, sheet) else {
        return;
    };
    let [lowest, low, high, highest] = four(draw, sheet, ends);
    let lowest_is_null = draw.random.chance(60);
    let highest_is_null = !lowest_is_null || draw.random.chance(30);
    let below = draw.random.below(2);
    set(
        &mut sheet.columns[below][ends[below]],
        null_if(lowest_is_null, lowest),
        low,
    );
    set(
        &mut sheet.columns[1 - below][ends[1 - below]],
        high,
        null_if(highest_is_null, highest),
    );
}

fn null_if(null: bool, scalar: Scalar) -> Scalar {
    match null {
        true => Scalar::Null,
        false => scalar,
    }
}

/// Bounds that lie to each other in one of the ways there are.
fn placed(draw: &mut Draw, sheet: &mut Sheet) {
    let Some(ends) = ends(draw, sheet) else {
        return;
    };
    let [a, b, c, d] = four(draw, sheet, ends);
    let (mut one, mut other) = match draw.random.weighted(&[10, 25, 20, 20, 15, 10]) {
        0 => ((a, b), (c, d)),
        1 => ((a, b), (b, c)),
        2 => ((a, c), (b, d)),
        3 => ((a, d), (b, c)),
        4 => ((b, b), (a, d)),
        _ => ((b, b), (b, b)),
    };
    if draw.random.chance(50) {
        (one, other) = (other, one);
    }
    set(&mut sheet.columns[0][ends[0]], one.0, one.1);
    set(&mut sheet.columns[1][ends[1]], other.0, other.1);
}

/// Rows without a value on both sides of a null-safe equality, now and then of disjoint columns.
fn nulls_on_both_sides(draw: &mut Draw, sheet: &mut Sheet) {
    let Some(ends) = null_safe_ends(draw, sheet) else {
        return;
    };
    for side in [0, 1] {
        let rows = sheet.rows[side].value;
        let part = some_part(&mut draw.random);
        sheet.columns[side][ends[side]].frequency.value = figure(rows * part);
    }
    if draw.random.chance(30) {
        let [a, b, c, d] = four(draw, sheet, ends);
        let below = draw.random.below(2);
        set(&mut sheet.columns[below][ends[below]], a, b);
        set(&mut sheet.columns[1 - below][ends[1 - below]], c, d);
    }
}

/// The ends of a null-safe equality that no ordinary one touches.
fn null_safe_ends(draw: &Draw, sheet: &Sheet) -> Option<[usize; 2]> {
    let ordinary: Vec<u16> = draw
        .edges
        .iter()
        .filter(|edge| !edge.null_safe)
        .flat_map(|edge| [edge.first, edge.second])
        .collect();
    let free = |column| !ordinary.contains(&column);
    let mut edges = draw.edges.iter();
    let edge = edges.find(|edge| edge.null_safe && free(edge.first) && free(edge.second))?;
    places(draw, sheet, edge)
}

fn some_part(random: &mut Random) -> f64 {
    random.pick(&[0.5, 0.25, 0.75, 0.8, 1.0 / 3.0])
}

/// A lower bound above the upper one, beside an interval that holds both.
fn reversed(draw: &mut Draw, sheet: &mut Sheet) {
    let Some(ends) = ends(draw, sheet) else {
        return;
    };
    let [a, b, c, d] = four(draw, sheet, ends);
    let side = draw.random.below(2);
    set(&mut sheet.columns[side][ends[side]], c, b);
    let (lower, upper) = match draw.random.weighted(&[70, 30]) {
        0 => (a, d),
        _ => (d, a),
    };
    let other = &mut sheet.columns[1 - side][ends[1 - side]];
    set(other, lower, upper);
}

/// A residual far below 2^-16 and a right side of about as many rows as make up for it, so that the
/// power has a large exponent and is neither 0 nor 1.
fn long_power(draw: &mut Draw, sheet: &mut Sheet) {
    let Some(ends) = ends(draw, sheet) else {
        return;
    };
    let tiny = 0.5_f64.powi(draw.random.between(17, 53) as i32) * (1.0 + draw.random.unit());
    sheet.settings[..3].fill(tiny);
    let rows = figure((0.25 + 4.0 * draw.random.unit()) / tiny);
    sheet.rows[1].value = rows;
    for side in [0, 1] {
        let column = &mut sheet.columns[side][ends[side]];
        column.frequency.value = sheet.rows[side].value;
        column.distinct.value = draw.random.between(1, 3) as f64;
        column.sketch = None;
    }
}
