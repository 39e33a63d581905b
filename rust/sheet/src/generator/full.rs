//! Fills sections up to their limits.

use super::Draw;
use super::classes;
use super::scalars::{self, Domain};
use crate::limits::{ALL_ITEMS, COLUMNS, SKETCH_ITEMS, most};
use crate::random::Random;
use crate::values::{Expression, Key, Scalar, Section, Sheet, Sketch, SketchItem, Table};

pub fn fill(draw: &mut Draw, sheet: &mut Sheet) {
    let limits = draw.style.limits;
    if limits.sketches {
        fill_sketches(draw, sheet);
    }
    if limits.items {
        fill_items(draw, sheet);
    }
    if limits.tables {
        fill_tables(draw, sheet);
    }
    if limits.keys {
        fill_keys(draw, sheet);
    }
    for side in [0, 1] {
        if limits.classes[side] {
            fill_classes(draw, sheet, side);
        }
    }
    if limits.wide_class {
        widen_class(draw, sheet);
    }
    if limits.operands {
        fill_operands(draw, sheet);
    }
    if limits.expressions {
        fill_expressions(draw, sheet);
    }
    if limits.conjuncts {
        fill_conjuncts(draw, sheet);
    }
}

fn fill_sketches(draw: &mut Draw, sheet: &mut Sheet) {
    while sheet.sketches.len() < most(Section::Sketches) {
        sheet.sketches.push(Sketch {
            population: draw.random.between(0, 5_000) as u64,
            items: Vec::new(),
        });
    }
    let [left, right] = &mut sheet.columns;
    for column in left.iter_mut().chain(right) {
        if draw.random.chance(40) {
            column.sketch = Some(draw.random.below(most(Section::Sketches)) as u16);
        }
    }
}

/// Fills sketch after sketch until all items are used.
fn fill_items(draw: &mut Draw, sheet: &mut Sheet) {
    while sheet.sketches.len() < ALL_ITEMS / SKETCH_ITEMS {
        sheet.sketches.push(Sketch {
            population: draw.random.between(100, 5_000) as u64,
            items: Vec::new(),
        });
    }
    let mut room = ALL_ITEMS - sheet.sketches.iter().map(|s| s.items.len()).sum::<usize>();
    for sketch in &mut sheet.sketches {
        while room > 0 && sketch.items.len() < SKETCH_ITEMS {
            room -= add_item(&mut draw.random, &draw.domain, sketch);
        }
    }
}

/// Adds an item if its value is new to the sketch, and says how many were added.
fn add_item(random: &mut Random, domain: &Domain, sketch: &mut Sketch) -> usize {
    let kind = match random.chance(70) {
        true => domain.kinds[0],
        false => scalars::kind(random),
    };
    let number = random.below(400) as i64 - 100;
    let value = domain.scalar(kind, number);
    if sketch.items.iter().any(|item| item.value == value) {
        return 0;
    }
    sketch.items.push(SketchItem {
        value,
        lower: random.between(0, 60) as u64,
        error: random.between(0, 9) as u64,
    });
    1
}

fn fill_tables(draw: &mut Draw, sheet: &mut Sheet) {
    while sheet.tables.len() < most(Section::Tables) {
        let table = draw.random.below(1 << 16) as u16;
        if sheet.tables.iter().all(|listed| listed.table != table) {
            let rows = Some(draw.random.between(0, 1_000) as u64);
            sheet.tables.push(Table { table, rows });
        }
    }
    sheet.tables.sort_by_key(|table| table.table);
}

fn fill_keys(draw: &mut Draw, sheet: &mut Sheet) {
    while sheet.keys.len() < most(Section::Keys) {
        let mut label = || draw.random.below(9) as u16;
        let key = (label(), label());
        let referenced = (label(), label());
        sheet.keys.push(match draw.random.chance(50) {
            true => Key::Unique { key },
            false => Key::Foreign { key, referenced },
        });
    }
}

fn fill_classes(draw: &mut Draw, sheet: &mut Sheet, side: usize) {
    while sheet.classes[side].len() < most(Section::LeftClasses) {
        let class = classes::class(draw, sheet, side);
        sheet.classes[side].push(class);
    }
}

/// Gives one class every column there can be, and now and then gives them to all classes.
fn widen_class(draw: &mut Draw, sheet: &mut Sheet) {
    if draw.random.chance(25) {
        for class in sheet.classes.iter_mut().flatten() {
            class.columns = (0..COLUMNS).collect();
        }
    }
    let side = draw.random.below(2);
    if sheet.classes[side].is_empty() {
        let class = classes::class(draw, sheet, side);
        sheet.classes[side].push(class);
    }
    let place = draw.random.below(sheet.classes[side].len());
    sheet.classes[side][place].columns = (0..COLUMNS).collect();
}

/// One long run takes all operands that are left.
fn fill_operands(draw: &mut Draw, sheet: &mut Sheet) {
    if sheet.expressions.len() == most(Section::Expressions) {
        return;
    }
    let leaves = leaves(sheet);
    if leaves.is_empty() {
        return;
    }
    let first = sheet.operands.len();
    while sheet.operands.len() < most(Section::Operands) {
        sheet.operands.push(draw.random.pick(&leaves));
    }
    sheet.expressions.push(Expression::Nary {
        op: draw.random.below(2) as u8,
        first: first as u16,
        count: (most(Section::Operands) - first) as u16,
    });
}

/// The expressions that may be an operand any number of times.
fn leaves(sheet: &Sheet) -> Vec<u16> {
    let expressions = sheet.expressions.iter().enumerate();
    expressions
        .filter(|(_, expression)| !matches!(expression, Expression::Nary { .. }))
        .map(|(number, _)| number as u16)
        .collect()
}

fn fill_expressions(draw: &mut Draw, sheet: &mut Sheet) {
    while sheet.expressions.len() < most(Section::Expressions) {
        let expression = small(draw, sheet);
        sheet.expressions.push(expression);
    }
}

/// An expression that needs no operands.
fn small(draw: &mut Draw, sheet: &Sheet) -> Expression {
    let count = sheet.expressions.len();
    let random = &mut draw.random;
    let mut child = || random.below(count) as u16;
    let (left, right) = (child(), child());
    match random.weighted(&[20, 20, 20, 30, 5, 5]) {
        0 => Expression::Literal(literal(random, &draw.domain)),
        1 => Expression::Column(draw.universe.any(random)),
        2 if count > 0 => Expression::Unary {
            op: random.below(4) as u8,
            child: left,
        },
        3 if count > 0 => Expression::Binary {
            op: random.below(11) as u8,
            left,
            right,
        },
        4 => Expression::Like,
        _ => Expression::Other,
    }
}

fn literal(random: &mut Random, domain: &Domain) -> Scalar {
    match random.chance(90) {
        true => domain.value(random, domain.kinds[0]),
        false => Scalar::Null,
    }
}

fn fill_conjuncts(draw: &mut Draw, sheet: &mut Sheet) {
    if sheet.expressions.is_empty() {
        sheet.expressions.push(Expression::Other);
    }
    while sheet.conjuncts.len() < most(Section::Conjuncts) {
        let number = draw.random.below(sheet.expressions.len());
        sheet.conjuncts.push(number as u16);
    }
}
