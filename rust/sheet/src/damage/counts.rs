//! Counts and lengths outside their limits, alone or with the records that they count.

use super::Copy;
use crate::limits::{ALL_ITEMS, CLASS_COLUMNS, SKETCH_ITEMS, most};
use crate::samples::{self, from_catalog};
use crate::values::{
    Class, Column, Expression, Holds, Key, Scalar, Section, Sheet, Sketch, SketchItem, Table,
};

/// A number outside a limit, or one that the bytes behind it don't bear out.
fn wrong(copy: &mut Copy, now: usize, limit: usize) -> usize {
    match copy.random.weighted(&[35, 15, 12, 10, 10, 8, 10]) {
        0 => limit + 1,
        1 => copy.random.pick(&[65_535, 32_768, 65_534, 1_024]),
        2 => limit + copy.random.between(2, 300),
        3 => now + 1,
        4 => now.saturating_sub(1),
        5 => 0,
        _ => usize::from((now as u16).swap_bytes()),
    }
}

pub fn count(copy: &mut Copy) -> bool {
    let Some(field) = copy.field_that(Holds::Count) else {
        return false;
    };
    let now = copy.u16_of(field);
    let number = wrong(copy, now, most(field.section));
    copy.put_u16(field, number)
}

pub fn length(copy: &mut Copy) -> bool {
    let Some(field) = copy.field_that(Holds::Length) else {
        return false;
    };
    let limit = match field.section {
        Section::Sketches => SKETCH_ITEMS,
        _ => *CLASS_COLUMNS.end(),
    };
    let now = copy.u16_of(field);
    let few = field.section != Section::Sketches && copy.random.chance(40);
    let number = match few {
        true => copy.random.below(2),
        false => wrong(copy, now, limit),
    };
    copy.put_u16(field, number)
}

/// One record more than allowed, with all records there.
pub fn too_many(copy: &mut Copy) -> bool {
    let sheet = &mut copy.sheet;
    let more = if copy.random.chance(80) { 1 } else { 5 };
    match copy.random.below(12) {
        0 => fill(&mut sheet.sketches, most(Section::Sketches) + more, |_| {
            sketch(0, 0)
        }),
        1 => sheet.sketches = vec![sketch(0, SKETCH_ITEMS + more)],
        2 => crowd(sheet, more),
        3 => sheet.tables = (0..most(Section::Tables) + more).map(table).collect(),
        4 => fill(&mut sheet.keys, most(Section::Keys) + more, |_| {
            Key::Unique { key: (1, 2) }
        }),
        5 => sheet.columns[0] = (0..most(Section::LeftColumns) + more).map(column).collect(),
        6 => sheet.columns[1] = (0..most(Section::LeftColumns) + more).map(column).collect(),
        7 => fill(
            &mut sheet.classes[0],
            most(Section::LeftClasses) + more,
            |_| class(2),
        ),
        8 => fill(
            &mut sheet.classes[1],
            most(Section::RightClasses) + more,
            |_| class(2),
        ),
        9 => fill(
            &mut sheet.expressions,
            most(Section::Expressions) + more,
            |_| Expression::Like,
        ),
        10 => too_many_operands(sheet, more),
        _ => too_many_conjuncts(sheet, more),
    }
    copy.write();
    true
}

/// Adds records until there are so many.
fn fill<T>(records: &mut Vec<T>, count: usize, record: impl Fn(usize) -> T) {
    while records.len() < count {
        records.push(record(records.len()));
    }
}

fn sketch(first: usize, count: usize) -> Sketch {
    let items = (first..first + count).map(|number| SketchItem {
        value: Scalar::Int64(number as i64),
        lower: 1,
        error: 0,
    });
    Sketch {
        population: 100,
        items: items.collect(),
    }
}

/// Sketches within their own limit that have too many items together.
fn crowd(sheet: &mut Sheet, more: usize) {
    let full = ALL_ITEMS / SKETCH_ITEMS;
    sheet.sketches = (0..full).map(|_| sketch(5, SKETCH_ITEMS)).collect();
    sheet.sketches.push(sketch(0, more));
}

fn table(number: usize) -> Table {
    Table {
        table: number as u16,
        rows: None,
    }
}

fn column(number: usize) -> Column {
    samples::column(number as u16)
}

fn class(count: usize) -> Class {
    Class {
        distinct: from_catalog(3.0),
        columns: (0..count as u16).collect(),
    }
}

fn too_many_operands(sheet: &mut Sheet, more: usize) {
    sheet.expressions.truncate(most(Section::Expressions) - 1);
    sheet.operands.truncate(next_operand(sheet));
    let first = sheet.operands.len();
    sheet.expressions.push(Expression::Nary {
        op: 0,
        first: first as u16,
        count: (most(Section::Operands) + more - first) as u16,
    });
    fill(&mut sheet.operands, most(Section::Operands) + more, |_| 0);
}

fn next_operand(sheet: &Sheet) -> usize {
    let runs = sheet.expressions.iter().map(|expression| match expression {
        Expression::Nary { count, .. } => usize::from(*count),
        _ => 0,
    });
    runs.sum()
}

fn too_many_conjuncts(sheet: &mut Sheet, more: usize) {
    if sheet.expressions.is_empty() {
        sheet.expressions.push(Expression::Other);
    }
    fill(&mut sheet.conjuncts, most(Section::Conjuncts) + more, |_| 0);
}

/// A class of no column, of one, or of more than there are.
pub fn bad_class(copy: &mut Copy) -> bool {
    let side = copy.random.below(2);
    let count = copy
        .random
        .pick(&[0, 1, 1, CLASS_COLUMNS.end() + 1, CLASS_COLUMNS.end() + 2]);
    let place = copy.random.below(copy.sheet.classes[side].len() + 1);
    copy.sheet.classes[side].insert(place, class(count));
    copy.write();
    true
}
