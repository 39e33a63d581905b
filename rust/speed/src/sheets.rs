//! The sheets that are timed, from one equality to every section at its limit.

use crate::sides::Question;
use sheet::samples::{self, empty, from_catalog};
use sheet::values::{Class, Column, Expression, Key, Scalar, Sheet, Sketch, SketchItem, Table};
use sheet::worked::{self, AND, EQ, OR};

const LT: u8 = 3;
const GT_EQ: u8 = 6;

/// What is asked of each sheet, by name.
pub fn all() -> Vec<(&'static str, Sheet, Question)> {
    let typical = typical();
    let filter = typical.conjuncts[3];
    let (operands, or) = operands_of_one(512);
    let (split, and) = conjunction(&typical);
    vec![
        ("small", worked::an_equality(), Question::Join),
        ("typical", typical.clone(), Question::Join),
        ("residual", residual(), Question::Join),
        ("sketches", sketches(), Question::Join),
        ("limits", limits(128), Question::Join),
        ("edges", limits(2), Question::Join),
        ("predicate", typical, Question::Predicate(filter)),
        ("operands", operands, Question::Predicate(or)),
        ("split", split, Question::Split(and)),
    ]
}

/// The typical sheet with an And of all its conjuncts.
fn conjunction(of: &Sheet) -> (Sheet, u16) {
    let mut sheet = of.clone();
    sheet.operands = of.conjuncts.clone();
    let count = sheet.operands.len() as u16;
    let and = Expression::Nary {
        op: AND,
        first: 0,
        count,
    };
    let number = add(&mut sheet, and);
    (sheet, number)
}

/// Eight columns a side, and an Or that names one comparison `count` times.
pub fn operands_of_one(count: u16) -> (Sheet, u16) {
    let mut sheet = with_columns(8);
    let operand = compare(&mut sheet, LT, 3, 400);
    sheet.operands = vec![operand; usize::from(count)];
    let or = Expression::Nary {
        op: OR,
        first: 0,
        count,
    };
    let number = add(&mut sheet, or);
    (sheet, number)
}

/// A column's profile with bounds, and the column of the table that it comes from.
pub fn column(number: u16, table: u16, distinct: f64) -> Column {
    Column {
        base: Some((table, number)),
        lower: Some(Scalar::Int64(i64::from(number))),
        upper: Some(Scalar::Int64(i64::from(number) + 900)),
        frequency: from_catalog(1_200.0),
        distinct: from_catalog(distinct),
        ..samples::column(number)
    }
}

/// `count` columns a side, from tables 1 and 2; the right ones are numbered behind the left ones.
pub fn with_columns(count: u16) -> Sheet {
    let side = |first: u16, table: u16| {
        let distinct = |place: u16| 100.0 + f64::from(7 * place + table);
        (0..count)
            .map(|place| column(first + place, table, distinct(place)))
            .collect::<Vec<_>>()
    };
    Sheet {
        rows: [from_catalog(1_240.0), from_catalog(1_300.0)],
        columns: [side(0, 1), side(count, 2)],
        ..empty()
    }
}

/// The number of the first right column.
fn first_right(sheet: &Sheet) -> u16 {
    sheet.columns[1][0].column
}

fn add(sheet: &mut Sheet, expression: Expression) -> u16 {
    sheet.expressions.push(expression);
    (sheet.expressions.len() - 1) as u16
}

/// A conjunct: the left column at `place` equals the right one.
pub fn equate(sheet: &mut Sheet, place: u16) {
    let left = add(sheet, Expression::Column(place));
    let right = first_right(sheet) + place;
    let right = add(sheet, Expression::Column(right));
    let op = EQ;
    let conjunct = add(sheet, Expression::Binary { op, left, right });
    sheet.conjuncts.push(conjunct);
}

/// A left column against a number.
pub fn compare(sheet: &mut Sheet, op: u8, place: u16, value: i64) -> u16 {
    let left = add(sheet, Expression::Column(place));
    let right = add(sheet, Expression::Literal(Scalar::Int64(value)));
    add(sheet, Expression::Binary { op, left, right })
}

fn filter(sheet: &mut Sheet, op: u8, place: u16, value: i64) {
    let conjunct = compare(sheet, op, place, value);
    sheet.conjuncts.push(conjunct);
}

/// Six columns a side with keys, three equalities and two filters.
pub fn typical() -> Sheet {
    let mut sheet = with_columns(6);
    sheet.tables = vec![table(1), table(2)];
    let right = first_right(&sheet);
    sheet.keys = vec![unique(2, right), foreign(1, 0, 2, right)];
    (0..3).for_each(|place| equate(&mut sheet, place));
    filter(&mut sheet, LT, 3, 400);
    filter(&mut sheet, EQ, 4, 17);
    sheet
}

fn table(number: u16) -> Table {
    Table {
        table: number,
        rows: Some(1_300),
    }
}

fn unique(table: u16, name: u16) -> Key {
    Key::Unique { key: (table, name) }
}

fn foreign(table: u16, name: u16, to: u16, there: u16) -> Key {
    Key::Foreign {
        key: (table, name),
        referenced: (to, there),
    }
}

/// An equality with about 12.4 partners a row, and three conditions behind it, so that the match is
/// a power whose exponent has a fraction.
pub fn residual() -> Sheet {
    let mut sheet = with_columns(6);
    equate(&mut sheet, 0);
    filter(&mut sheet, LT, 3, 400);
    filter(&mut sheet, GT_EQ, 4, 17);
    let other = add(&mut sheet, Expression::Other);
    sheet.conjuncts.push(other);
    sheet
}

/// A sketch of `count` values.
pub fn sketch(count: i64) -> Sketch {
    let item = |value| SketchItem {
        value: Scalar::Int64(value),
        lower: 10 + value as u64 % 7,
        error: 1,
    };
    Sketch {
        population: 1_200,
        items: (0..count).map(item).collect(),
    }
}

/// Sixteen sketches, of which the first pair has 64 values in common and the others share the rest.
fn sixteen() -> Vec<Sketch> {
    let rest = (512 - 2 * 64) / 14;
    let count = |number| if number < 2 { 64 } else { rest };
    (0..16).map(|number| sketch(count(number))).collect()
}

/// Eight columns a side, each with a sketch, equated in pairs; and one filter on a sketched column.
pub fn sketches() -> Sheet {
    let mut sheet = with_columns(8);
    sheet.sketches = sixteen();
    for side in [0, 1] {
        for (place, column) in sheet.columns[side].iter_mut().enumerate() {
            column.sketch = Some((2 * place + side) as u16);
        }
    }
    (0..8).for_each(|place| equate(&mut sheet, place));
    filter(&mut sheet, EQ, 0, 40);
    sheet
}

/// Every section at its limit; each class has `width` columns. With 128 every class joins all
/// columns and no edge counts; with 2 every edge does.
pub fn limits(width: u16) -> Sheet {
    let mut sheet = with_columns(64);
    sheet.sketches = sixteen();
    add_items(&mut sheet, 6);
    for (place, column) in sheet.columns.iter_mut().flatten().enumerate() {
        column.sketch = Some((place % 16) as u16);
    }
    sheet.tables = (1..=64).map(table).collect();
    sheet.keys = (0..32)
        .flat_map(|name| [unique(2, 65 + name), foreign(1, name, 2, 65 + name)])
        .collect();
    sheet.classes = [classes(0, width), classes(64, width)];
    for column in 0..128 {
        add(&mut sheet, Expression::Column(column));
    }
    for place in 0..56 {
        equate_added(&mut sheet, place);
    }
    let compared = comparisons(&mut sheet);
    for number in 0..8 {
        nary(&mut sheet, number, &compared);
    }
    sheet
}

/// Spends the items that the sixteen leave over.
fn add_items(sheet: &mut Sheet, count: i64) {
    let last = sheet.sketches.len() - 1;
    let held = sheet.sketches[last].items.len() as i64;
    sheet.sketches[last] = sketch(held + count);
}

/// Thirty-two classes, of neighbours where they are narrow and of the numbers from 0 on otherwise.
fn classes(first: u16, width: u16) -> Vec<Class> {
    let start = |number: u16| match width {
        128 => 0,
        _ => first + 2 * number,
    };
    (0..32)
        .map(|number| Class {
            distinct: from_catalog(40.0 + f64::from(number)),
            columns: (start(number)..start(number) + width).collect(),
        })
        .collect()
}

/// An equality of a left column and the right one behind it, whose expressions have the columns'
/// numbers. Narrow classes make a chain of them, in which each joins two classes.
fn equate_added(sheet: &mut Sheet, place: u16) {
    let conjunct = add(
        sheet,
        Expression::Binary {
            op: EQ,
            left: place,
            right: 65 + place,
        },
    );
    sheet.conjuncts.push(conjunct);
}

/// Thirty-two literals and as many comparisons of a column with one.
fn comparisons(sheet: &mut Sheet) -> Vec<u16> {
    let literals: Vec<u16> = (0..32)
        .map(|value| add(sheet, Expression::Literal(Scalar::Int64(20 * value))))
        .collect();
    let compared = |(place, literal): (usize, &u16)| Expression::Binary {
        op: [EQ, LT][place % 2],
        left: place as u16,
        right: *literal,
    };
    let expressions: Vec<Expression> = literals.iter().enumerate().map(compared).collect();
    expressions.into_iter().map(|it| add(sheet, it)).collect()
}

/// A conjunct of 64 operands: an Or, or an And at every second number.
fn nary(sheet: &mut Sheet, number: usize, operands: &[u16]) {
    let first = sheet.operands.len() as u16;
    let run = operands.iter().cycle().skip(number).take(64);
    sheet.operands.extend(run);
    let expression = Expression::Nary {
        op: [OR, AND][number % 2],
        first,
        count: 64,
    };
    let conjunct = add(sheet, expression);
    sheet.conjuncts.push(conjunct);
}
