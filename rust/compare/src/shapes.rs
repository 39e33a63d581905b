//! Shapes of sheets that are counted, so that one which is never drawn is seen.

use sheet::limits::{ALL_ITEMS, CLASS_COLUMNS, most};
use sheet::values::{Expression, Scalar, Section, Sheet};

fn has_column(sheet: &Sheet, side: usize, column: u16) -> bool {
    sheet.columns[side]
        .iter()
        .any(|profile| profile.column == column)
}

/// Which profiles a column has.
fn sides(sheet: &Sheet, column: u16) -> &'static str {
    match (has_column(sheet, 0, column), has_column(sheet, 1, column)) {
        (true, false) => "left",
        (false, true) => "right",
        (true, true) => "both",
        (false, false) => "neither",
    }
}

/// The columns of the equating conjuncts, and whether each is null-safe.
fn equalities(sheet: &Sheet) -> Vec<(u16, u16, bool)> {
    let column = |number: u16| match sheet.expressions[number as usize] {
        Expression::Column(column) => Some(column),
        _ => None,
    };
    let conjuncts = sheet
        .conjuncts
        .iter()
        .map(|number| sheet.expressions[*number as usize]);
    conjuncts
        .filter_map(|conjunct| match conjunct {
            Expression::Binary { op, left, right } if op < 2 => {
                Some((column(left)?, column(right)?, op == 1))
            }
            _ => None,
        })
        .collect()
}

fn edge_shapes(sheet: &Sheet) -> Vec<String> {
    let edges = equalities(sheet);
    let mut shapes = Vec::new();
    for (left, right, null_safe) in &edges {
        if left == right {
            shapes.push("an equality of a column with itself".to_string());
        } else {
            let op = if *null_safe { "null-safe" } else { "ordinary" };
            shapes.push(format!(
                "{op} equality, {} and {}",
                sides(sheet, *left),
                sides(sheet, *right)
            ));
        }
    }
    let repeated = edges
        .iter()
        .enumerate()
        .any(|(i, edge)| edges[..i].contains(edge));
    if repeated {
        shapes.push("an equality twice".to_string());
    }
    shapes
}

fn length(sheet: &Sheet, section: Section) -> usize {
    match section {
        Section::Rows => sheet.rows.len(),
        Section::Settings => sheet.settings.len(),
        Section::Sketches => sheet.sketches.len(),
        Section::Tables => sheet.tables.len(),
        Section::Keys => sheet.keys.len(),
        Section::LeftColumns => sheet.columns[0].len(),
        Section::RightColumns => sheet.columns[1].len(),
        Section::LeftClasses => sheet.classes[0].len(),
        Section::RightClasses => sheet.classes[1].len(),
        Section::Expressions => sheet.expressions.len(),
        Section::Operands => sheet.operands.len(),
        Section::Conjuncts => sheet.conjuncts.len(),
    }
}

fn limit_shapes(sheet: &Sheet) -> Vec<String> {
    let varying = &sheet::values::SECTIONS[2..];
    let at_limit = varying
        .iter()
        .filter(|section| length(sheet, **section) == most(**section));
    let mut shapes: Vec<String> = at_limit
        .map(|section| format!("at its limit: {section:?}"))
        .collect();
    if sheet
        .sketches
        .iter()
        .map(|sketch| sketch.items.len())
        .sum::<usize>()
        == ALL_ITEMS
    {
        shapes.push("at its limit: all sketches' items".to_string());
    }
    if sheet
        .classes
        .iter()
        .flatten()
        .any(|class| class.columns.len() == *CLASS_COLUMNS.end())
    {
        shapes.push("at its limit: a class's columns".to_string());
    }
    shapes
}

fn sketch_shapes(sheet: &Sheet) -> Vec<String> {
    let mut shapes = Vec::new();
    if sheet.sketches.iter().any(|sketch| sketch.population == 0) {
        shapes.push("a sketch of population 0".to_string());
    }
    if sheet.sketches.iter().any(|sketch| sketch.items.is_empty()) {
        shapes.push("a sketch without items".to_string());
    }
    shapes
}

fn bound_shapes(sheet: &Sheet) -> Vec<String> {
    let bounds = sheet
        .columns
        .iter()
        .flatten()
        .map(|column| (column.lower, column.upper));
    let mut shapes = Vec::new();
    for (lower, upper) in bounds {
        let shape = match (lower, upper) {
            (Some(Scalar::Null), Some(Scalar::Null)) => "both Null",
            (Some(Scalar::Null), _) | (_, Some(Scalar::Null)) => "one Null",
            (None, None) => "both absent",
            (None, _) | (_, None) => "one absent",
            (Some(lower), Some(upper)) => order(&lower, &upper),
        };
        shapes.push(format!("bounds: {shape}"));
    }
    shapes
}

fn order(lower: &Scalar, upper: &Scalar) -> &'static str {
    use oracle::analysis::scalar_of;
    match oracle::pieces::order(&scalar_of(lower), &scalar_of(upper)) {
        None => "without an order",
        Some(order) if order.is_lt() => "rising",
        Some(order) if order.is_eq() => "a point",
        Some(_) => "reversed",
    }
}

/// The shapes of a sheet, each once.
pub fn shapes(sheet: &Sheet) -> Vec<String> {
    let mut all = edge_shapes(sheet);
    all.extend(limit_shapes(sheet));
    all.extend(sketch_shapes(sheet));
    all.extend(bound_shapes(sheet));
    all.sort();
    all.dedup();
    all
}
