//! Columns and tables out of order, values twice, and numbers that name nothing.

use super::Copy;
use crate::limits;
use crate::values::{Expression, Field, Holds, Scalar, Section, SketchItem};

const COLUMNS: usize = limits::COLUMNS as usize;

/// A column or table whose number is too large, or not above the one before.
pub fn column(copy: &mut Copy) -> bool {
    if copy.random.chance(20) {
        return column_expression(copy);
    }
    let field = copy.field(|field| matches!(field.holds, Holds::Column | Holds::Table));
    let Some(field) = field else {
        return false;
    };
    let before = before(copy, field);
    let number = match (before, copy.random.weighted(&[35, 15, 50])) {
        (Some(before), 0) => before,
        (Some(before), 1) => before.saturating_sub(1),
        _ => copy.random.pick(&[0, COLUMNS, COLUMNS + 1, 256, 65_535]),
    };
    copy.put_u16(field, number)
}

/// The number in the same list that stands before a field.
fn before(copy: &Copy, field: Field) -> Option<usize> {
    let fields = copy.fields.iter().copied();
    let earlier = fields.take_while(|other| other.at < field.at);
    let same_list = |other: &Field| {
        let same_record = other.record == field.record || field.item.is_none();
        other.section == field.section && other.holds == field.holds && same_record
    };
    let last = earlier.filter(same_list).last()?;
    Some(copy.u16_of(last))
}

fn column_expression(copy: &mut Copy) -> bool {
    let column = copy.expression(|expression| matches!(expression, Expression::Column(_)));
    let Some(field) = column.and_then(|number| copy.expression_field(number, "a")) else {
        return false;
    };
    let number = copy.random.pick(&[COLUMNS, COLUMNS + 1, 255, 256, 65_535]);
    copy.put_u16(field, number)
}

/// Two neighbours in a list of columns or tables change places, or become equal.
pub fn disordered(copy: &mut Copy) -> bool {
    let equal = copy.random.chance(50);
    let side = copy.random.below(2);
    let sheet = &mut copy.sheet;
    let done = match copy.random.below(3) {
        0 => neighbours(copy.random.word(), sheet.tables.len()).map(|place| {
            let next = sheet.tables[place + 1].table;
            sheet.tables[place + 1].table = sheet.tables[place].table;
            if !equal {
                sheet.tables[place].table = next;
            }
        }),
        1 => neighbours(copy.random.word(), sheet.columns[side].len()).map(|place| {
            let columns = &mut sheet.columns[side];
            let next = columns[place + 1].column;
            columns[place + 1].column = columns[place].column;
            if !equal {
                columns[place].column = next;
            }
        }),
        _ => {
            let classes = &mut sheet.classes[side];
            let class = copy.random.below(classes.len());
            let count = classes.get(class).map_or(0, |class| class.columns.len());
            neighbours(copy.random.word(), count).map(|place| {
                let columns = &mut classes[class].columns;
                match equal {
                    true => columns[place + 1] = columns[place],
                    false => columns.swap(place, place + 1),
                }
            })
        }
    };
    copy.write();
    done.is_some()
}

/// The first of two neighbouring places.
fn neighbours(word: u64, count: usize) -> Option<usize> {
    match count > 1 {
        true => Some(word as usize % (count - 1)),
        false => None,
    }
}

/// The same value twice in a sketch, or Null in one.
pub fn twice(copy: &mut Copy) -> bool {
    let number = copy.random.below(copy.sheet.sketches.len());
    let Some(sketch) = copy.sheet.sketches.get_mut(number) else {
        return false;
    };
    let Some(item) = copy.random.pick_any(&sketch.items) else {
        return false;
    };
    let other = SketchItem {
        lower: 3,
        error: 1,
        ..item
    };
    match copy.random.weighted(&[50, 25, 25]) {
        0 => sketch.items.push(other),
        1 => {
            let last = sketch.items.len() - 1;
            sketch.items[last] = other;
        }
        _ => {
            let at = copy.random.below(sketch.items.len());
            sketch.items[at].value = Scalar::Null;
        }
    }
    copy.write();
    true
}

/// A child that isn't below its parent.
pub fn child(copy: &mut Copy) -> bool {
    let parent = copy.expression(|expression| {
        matches!(
            expression,
            Expression::Unary { .. } | Expression::Binary { .. }
        )
    });
    let Some(number) = parent else {
        return false;
    };
    let name = match copy.sheet.expressions[number] {
        Expression::Binary { .. } => copy.random.pick(&["a", "b"]),
        _ => "a",
    };
    let Some(field) = copy.expression_field(number, name) else {
        return false;
    };
    let count = copy.sheet.expressions.len();
    let child = match copy.random.weighted(&[40, 25, 20, 15]) {
        0 => number,
        1 => number + 1,
        2 => count,
        _ => copy.random.pick(&[65_535, 256, 0xff00 | number]),
    };
    copy.put_u16(field, child)
}

/// An operand, a conjunct or a sketch's number that names nothing, or an operand at or above the
/// expression that it belongs to.
pub fn named(copy: &mut Copy) -> bool {
    let holds = copy
        .random
        .pick(&[Holds::Named, Holds::Named, Holds::Sketch]);
    let Some(field) = copy.field_that(holds) else {
        return false;
    };
    let count = match holds {
        Holds::Sketch => copy.sheet.sketches.len(),
        _ => copy.sheet.expressions.len(),
    };
    let parent = match field.section {
        Section::Operands => field.record.and_then(|operand| parent(copy, operand)),
        _ => None,
    };
    let number = match (parent, copy.random.weighted(&[40, 30, 30])) {
        (Some(parent), 0) => parent,
        (Some(parent), 1) => parent + 1,
        (None, 0) => count,
        (None, 1) => count + 1,
        _ => copy.random.pick(&[65_535, 65_534, 256, count]),
    };
    copy.put_u16(field, number)
}

/// The expression in whose run an operand stands.
fn parent(copy: &Copy, operand: usize) -> Option<usize> {
    let mut expressions = copy.sheet.expressions.iter();
    expressions.position(|expression| match *expression {
        Expression::Nary { first, count, .. } => {
            let first = usize::from(first);
            (first..first + usize::from(count)).contains(&operand)
        }
        _ => false,
    })
}
