//! Profile classes: they overlap, repeat and hold columns with and without a profile.

use super::Draw;
use super::figures::{class_distinct, estimate};
use super::style::Size;
use crate::limits::COLUMNS;
use crate::values::{Class, Sheet};

pub fn fill(draw: &mut Draw, sheet: &mut Sheet) {
    for side in [0, 1] {
        for _ in 0..count(draw) {
            let class = class(draw, sheet, side);
            sheet.classes[side].push(class);
        }
    }
}

fn count(draw: &mut Draw) -> usize {
    match draw.style.size {
        Size::Small => draw.random.weighted(&[58, 22, 13, 7]),
        Size::Middling => draw.random.weighted(&[44, 26, 15, 9, 6]),
        Size::Large => draw.random.between(0, 12),
    }
}

/// One more class of a side.
pub fn class(draw: &mut Draw, sheet: &Sheet, side: usize) -> Class {
    let columns = columns(draw, sheet, side);
    let near = near(sheet, &columns);
    let distinct = class_distinct(&mut draw.random, &draw.style, near);
    Class {
        distinct: estimate(&mut draw.random, distinct),
        columns,
    }
}

fn columns(draw: &mut Draw, sheet: &Sheet, side: usize) -> Vec<u16> {
    let earlier: Vec<&Class> = sheet.classes.iter().flatten().collect();
    let repeated = draw.random.chance(20);
    if let (Some(class), true) = (draw.random.pick_any(&earlier), repeated) {
        return class.columns.clone();
    }
    let mut columns = Vec::new();
    if let Some(class) = draw.random.pick_any(&earlier)
        && draw.random.chance(45)
    {
        columns.push(draw.random.pick(&class.columns));
    }
    let count = [2, 3, 4, 5, 9][draw.random.weighted(&[50, 27, 13, 7, 3])];
    // A few tries that hit a column twice are lost; two columns are made sure of.
    for _ in columns.len()..count {
        add(&mut columns, member(draw, side));
    }
    while columns.len() < 2 {
        add(&mut columns, draw.random.below(COLUMNS.into()) as u16);
    }
    columns.sort();
    columns
}

fn add(columns: &mut Vec<u16>, column: u16) {
    if !columns.contains(&column) {
        columns.push(column);
    }
}

/// A column for a class of a side: mostly one of that side, or one at the end of an equality.
fn member(draw: &mut Draw, side: usize) -> u16 {
    let own = draw.universe.profile(side);
    let found = match draw.random.weighted(&[72, 8, 13, 7]) {
        0 => draw.random.pick_any(&own),
        1 => draw.random.pick_any(&draw.edges).map(|edge| edge.first),
        2 => None,
        _ => draw.random.pick_any(&draw.universe.neither),
    };
    found.unwrap_or_else(|| draw.universe.any(&mut draw.random))
}

/// The distinct of a column that has a profile.
fn near(sheet: &Sheet, columns: &[u16]) -> f64 {
    sheet
        .columns
        .iter()
        .flatten()
        .find(|column| columns.contains(&column.column))
        .map_or(20.0, |column| column.distinct.value)
}
