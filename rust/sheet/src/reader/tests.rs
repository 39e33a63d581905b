use super::*;
use crate::samples;
use crate::text::section_name;
use crate::values::{Field, Holds, SECTIONS};
use crate::writer::{fields, scalar_bytes, write};

/// A field by its section, record, item and name.
type Name = (Section, Option<usize>, Option<usize>, &'static str);

fn name_of(field: &Field) -> Name {
    (field.section, field.record, field.item, field.name)
}

fn find(sheet: &Sheet, name: Name) -> Field {
    let all = fields(sheet);
    let found = all.into_iter().find(|field| name_of(field) == name);
    found.unwrap_or_else(|| panic!("no field {name:?}"))
}

/// The bytes of the sheet with other bytes at the start of a field.
fn with(sheet: &Sheet, name: Name, put: &[u8]) -> Vec<u8> {
    let mut bytes = write(sheet);
    let field = find(sheet, name);
    assert!(put.len() <= field.size);
    bytes[field.at..][..put.len()].copy_from_slice(put);
    bytes
}

fn refusal(number: u8, at: usize, name: Name) -> Refusal {
    Refusal {
        number,
        at,
        section: Some(name.0),
        record: name.1,
        item: name.2,
        field: name.3,
    }
}

/// A change of one field is refused at that field.
#[track_caller]
fn refused_there(sheet: &Sheet, number: u8, name: Name, put: &[u8]) {
    refused_at(sheet, number, name, put, name);
}

/// A change of one field is refused at another.
#[track_caller]
fn refused_at(sheet: &Sheet, number: u8, name: Name, put: &[u8], at: Name) {
    let expected = refusal(number, find(sheet, at).at, at);
    assert_eq!(read(&with(sheet, name, put)), Err(expected), "{put:?}");
}

/// A sheet's own bytes are refused at one of its fields.
#[track_caller]
fn sheet_refused(sheet: &Sheet, number: u8, at: Name) {
    refused_at(sheet, number, at, &[], at);
}

#[track_caller]
fn accepted(sheet: &Sheet) {
    let read = read(&write(sheet)).unwrap();
    assert_eq!(read.sheet, *sheet);
    let counts: Vec<_> = fields(sheet)
        .iter()
        .filter(|field| field.holds == Holds::Count)
        .map(|field| field.at as u16)
        .collect();
    assert_eq!(read.sections[..], counts);
}

/// Patches that leave a sheet a sheet.
#[track_caller]
fn accepted_with(sheet: &Sheet, name: Name, put: &[u8]) {
    let bytes = with(sheet, name, put);
    let read = read(&bytes).unwrap();
    assert_eq!(write(&read.sheet), bytes);
}

fn count(section: Section) -> Name {
    (section, None, None, "count")
}

fn field(section: Section, record: usize, name: &'static str) -> Name {
    (section, Some(record), None, name)
}

fn item(section: Section, record: usize, item: usize, name: &'static str) -> Name {
    (section, Some(record), Some(item), name)
}

fn u16s(number: u16) -> [u8; 2] {
    number.to_le_bytes()
}

fn above(value: f64) -> f64 {
    value.next_up()
}

fn below(value: f64) -> f64 {
    value.next_down()
}

#[test]
fn hand_made_sheets_come_back() {
    accepted(&samples::empty());
    accepted(&samples::full());
    accepted(&samples::largest());
}

#[test]
fn the_empty_sheet_is_accepted() {
    let read = read(&write(&samples::empty())).unwrap();
    assert_eq!(read.sheet, samples::empty());
    let places = [0, 54, 96, 98, 100, 102, 104, 106, 108, 110, 112, 114];
    assert_eq!(read.sections, places);
}

#[test]
fn every_prefix_ends_inside_a_part() {
    for sheet in [samples::empty(), samples::full()] {
        let bytes = write(&sheet);
        let all = fields(&sheet);
        for length in 0..bytes.len() {
            let end = all.iter().rfind(|field| field.at <= length).unwrap();
            let part = (end.section, end.record, end.item);
            let start = all
                .iter()
                .find(|field| (field.section, field.record, field.item) == part)
                .unwrap();
            let refused = read(&bytes[..length]).unwrap_err();
            assert_eq!(refused.number, 2);
            assert_eq!(refused.at, start.at);
            assert_eq!(
                (refused.section, refused.record, refused.item),
                (Some(end.section), end.record, end.item)
            );
            assert_eq!(refused.field, part_name(end));
        }
    }
}

/// The name of the part of a sheet in which a field stands.
fn part_name(field: &Field) -> &'static str {
    let has_head = matches!(
        field.section,
        Section::Sketches | Section::LeftClasses | Section::RightClasses
    );
    match (field.record, field.item) {
        (None, _) => "count",
        (Some(_), None) if has_head => "head",
        _ => "record",
    }
}

#[test]
fn a_long_sheet_gives_1() {
    let too_long = |length| Err(sheet_refusal(1, length, "length"));
    assert_eq!(read(&vec![0; 65_536]), too_long(65_536));
    assert_eq!(read(&vec![0; 70_000]), too_long(70_000));
    let mut bytes = write(&samples::empty());
    bytes.resize(65_536, 0);
    assert_eq!(read(&bytes), too_long(65_536));
    bytes.pop();
    assert_eq!(read(&bytes), Err(sheet_refusal(10, 116, "end")));
}

#[test]
fn a_part_is_looked_at_whole_before_its_fields() {
    let sheet = samples::full();
    let rows = with(&sheet, field(Section::Rows, 0, "source"), &[9]);
    let record = field(Section::Rows, 0, "record");
    assert_eq!(read(&rows[..27]), Err(refusal(2, 2, record)));
    let source = field(Section::Rows, 0, "source");
    assert_eq!(read(&rows[..28]), Err(refusal(6, 2, source)));

    let n = field(Section::LeftClasses, 0, "n");
    let bytes = with(&sheet, n, &u16s(1));
    let at = find(&sheet, n).at;
    let head = field(Section::LeftClasses, 0, "head");
    assert_eq!(read(&bytes[..at + 27]), Err(refusal(2, at, head)));
    assert_eq!(read(&bytes[..at + 28]), Err(refusal(3, at, n)));

    let scalar = item(Section::Sketches, 1, 0, "scalar");
    let bytes = with(&sheet, scalar, &[7]);
    let at = find(&sheet, scalar).at;
    let record = item(Section::Sketches, 1, 0, "record");
    assert_eq!(read(&bytes[..at + 34]), Err(refusal(2, at, record)));
    assert_eq!(read(&bytes[..at + 35]), Err(refusal(5, at, scalar)));
}

#[test]
fn a_head_is_judged_before_its_items_are_there() {
    let sheet = samples::full();
    let population = field(Section::Sketches, 1, "population");
    let at = find(&sheet, population).at;
    let bytes = with(&sheet, population, &[255; 8]);
    assert_eq!(read(&bytes[..at + 10]), Err(refusal(4, at, population)));
    let source = field(Section::LeftClasses, 0, "distinct source");
    let at = find(&sheet, source).at;
    let bytes = with(&sheet, source, &[5]);
    assert_eq!(read(&bytes[..at + 26]), Err(refusal(6, at, source)));
}

#[test]
fn the_first_broken_field_is_told() {
    let sheet = samples::full();
    let value = field(Section::Rows, 0, "value");
    let flags = field(Section::Rows, 0, "flags");
    let mut bytes = with(&sheet, value, &[255; 8]);
    assert_eq!(read(&bytes), Err(refusal(4, 4, value)));
    bytes[3] = 4;
    assert_eq!(read(&bytes), Err(refusal(6, 3, flags)));
    bytes[0] = 3;
    assert_eq!(read(&bytes), Err(refusal(3, 0, count(Section::Rows))));
}

#[test]
fn counts_outside_their_limits_give_3() {
    let sheet = samples::full();
    let limits = [
        (Section::Sketches, 16),
        (Section::Tables, 64),
        (Section::Keys, 64),
        (Section::LeftColumns, 64),
        (Section::RightColumns, 64),
        (Section::LeftClasses, 32),
        (Section::RightClasses, 32),
        (Section::Expressions, 256),
        (Section::Operands, 512),
        (Section::Conjuncts, 64),
    ];
    for (section, limit) in limits {
        refused_there(&sheet, 3, count(section), &u16s(limit + 1));
        refused_there(&sheet, 3, count(section), &u16s(65_535));
    }
    for other in [0, 1, 3, 258, 514] {
        refused_there(&sheet, 3, count(Section::Rows), &u16s(other));
    }
    for other in [0, 4, 6, 261] {
        refused_there(&sheet, 3, count(Section::Settings), &u16s(other));
    }
}

/// docs/FORMAT.md has these words.
#[track_caller]
fn documented(words: &str) {
    let page = include_str!("../../../../docs/FORMAT.md");
    assert!(page.contains(words), "docs/FORMAT.md has no '{words}'");
}

#[test]
fn the_documented_sizes() {
    let sizes = [
        ("estimate", ESTIMATE_SIZE),
        ("scalar", SCALAR_SIZE),
        ("table", TABLE_SIZE),
        ("key", KEY_SIZE),
        ("column", COLUMN_SIZE),
        ("expression", EXPRESSION_SIZE),
    ];
    for (part, size) in sizes {
        documented(&format!("| {part} | {size} |"));
    }
    documented(&format!(
        "| sketch: head, each item | {SKETCH_HEAD_SIZE}, {SKETCH_ITEM_SIZE} |"
    ));
    documented(&format!(
        "| class: head, each column | {CLASS_HEAD_SIZE}, 2 |"
    ));
    let [shortest, longest] = [samples::empty(), samples::largest()].map(|s| write(&s).len());
    documented(&format!(
        "The shortest sheet has {shortest} bytes, and one with every section full {},{:03},",
        longest / 1000,
        longest % 1000
    ));
}

#[test]
fn the_documented_counts() {
    for (number, section) in (1..).zip(SECTIONS) {
        let limits = counts(section);
        let limits = match limits.start() == limits.end() {
            true => limits.end().to_string(),
            false => format!("{}..{}", limits.start(), limits.end()),
        };
        let name = section_name(section);
        documented(&format!("| {number} | {name} | {limits} |"));
    }
}

#[test]
fn the_largest_sheet_fills_every_limit() {
    let sheet = samples::largest();
    assert_eq!(write(&sheet).len(), 57_684);
    assert_eq!(sheet.sketches.len(), 16);
    assert_eq!((sheet.tables.len(), sheet.keys.len()), (64, 64));
    assert_eq!((sheet.columns[0].len(), sheet.columns[1].len()), (64, 64));
    assert_eq!((sheet.classes[0].len(), sheet.classes[1].len()), (32, 32));
    assert_eq!(sheet.expressions.len(), 256);
    assert_eq!((sheet.operands.len(), sheet.conjuncts.len()), (512, 64));
    accepted(&sheet);
}

#[test]
fn sixty_four_conjuncts_pass_and_one_more_gives_3() {
    let mut sheet = samples::empty();
    sheet.expressions.push(Expression::Other);
    sheet.conjuncts = vec![0; 64];
    accepted(&sheet);
    sheet.conjuncts.push(0);
    sheet_refused(&sheet, 3, count(Section::Conjuncts));
}

#[test]
fn classes_have_2_to_128_columns() {
    for side in [0, 1] {
        let section = [Section::LeftClasses, Section::RightClasses][side];
        let mut sheet = samples::empty();
        for columns in [2, 3, 127, 128] {
            sheet.classes[side] = vec![Class {
                distinct: samples::from_catalog(1.0),
                columns: (0..columns).collect(),
            }];
            accepted(&sheet);
        }
        for columns in [0, 1, 129, 258] {
            sheet.classes[side][0].columns = (0..columns).collect();
            sheet_refused(&sheet, 3, field(section, 0, "n"));
        }
    }
}

#[test]
fn a_sketch_has_64_items_and_all_have_512() {
    let sketch = |n: i64| Sketch {
        population: 0,
        items: (0..n)
            .map(|value| SketchItem {
                value: Scalar::Int64(value),
                lower: 0,
                error: 0,
            })
            .collect(),
    };
    let mut sheet = samples::empty();
    sheet.sketches = vec![sketch(64); 8];
    accepted(&sheet);
    sheet.sketches.push(sketch(0));
    accepted(&sheet);
    sheet.sketches.push(sketch(1));
    sheet_refused(&sheet, 3, field(Section::Sketches, 9, "n"));
    sheet.sketches = vec![sketch(1), sketch(65)];
    sheet_refused(&sheet, 3, field(Section::Sketches, 1, "n"));
    sheet.sketches = vec![sketch(63); 9];
    sheet_refused(&sheet, 3, field(Section::Sketches, 8, "n"));
}

/// Floats that are never figures.
fn no_figures() -> Vec<f64> {
    let least = 2f64.powi(-64);
    let mut out = vec![-0.0, -1.0, below(least), f64::MIN_POSITIVE, 5e-324];
    out.extend([f64::NAN, -f64::NAN, f64::INFINITY, f64::NEG_INFINITY]);
    out.extend([f64::MAX, -least, -2f64.powi(64)]);
    out
}

fn estimates() -> Vec<(
    Section,
    &'static str,
    &'static str,
    &'static str,
    &'static str,
)> {
    let rows = (Section::Rows, "flags", "value", "lower", "upper");
    let mut out = vec![rows];
    for section in [Section::LeftColumns, Section::RightColumns] {
        out.push((
            section,
            "frequency flags",
            "frequency value",
            "frequency lower",
            "frequency upper",
        ));
    }
    for section in [
        Section::LeftColumns,
        Section::RightColumns,
        Section::LeftClasses,
        Section::RightClasses,
    ] {
        out.push((
            section,
            "distinct flags",
            "distinct value",
            "distinct lower",
            "distinct upper",
        ));
    }
    out
}

/// A sheet whose estimates all have both bounds, or none.
fn bounded(bound: Option<f64>) -> Sheet {
    let mut sheet = samples::full();
    let set = |estimate: &mut Estimate| {
        estimate.lower = bound;
        estimate.upper = bound;
    };
    sheet.rows.iter_mut().for_each(set);
    for column in sheet.columns.iter_mut().flatten() {
        set(&mut column.frequency);
        set(&mut column.distinct);
    }
    for class in sheet.classes.iter_mut().flatten() {
        set(&mut class.distinct);
    }
    sheet
}

#[test]
fn figures_outside_their_range_give_4() {
    let sheet = bounded(Some(1.0));
    let mut bad = no_figures();
    bad.push(above(2f64.powi(64)));
    for (section, _, value, lower, upper) in estimates() {
        for name in [value, lower, upper] {
            let name = field(section, 0, name);
            for figure in &bad {
                refused_there(&sheet, 4, name, &figure.to_le_bytes());
            }
            for figure in [0.0, 2f64.powi(-64), 1.0, 2f64.powi(64)] {
                accepted_with(&sheet, name, &figure.to_le_bytes());
            }
        }
    }
}

#[test]
fn absent_bounds_give_6_unless_zero() {
    let sheet = bounded(None);
    for (section, flags, _, lower, upper) in estimates() {
        for name in [lower, upper] {
            let name = field(section, 0, name);
            for figure in [-0.0, 1.0, f64::NAN, 5e-324] {
                refused_there(&sheet, 6, name, &figure.to_le_bytes());
            }
        }
        let flags = field(section, 0, flags);
        for present in [1, 2, 3] {
            accepted_with(&sheet, flags, &[present]);
        }
        for code in [4, 5, 8, 128, 255] {
            refused_there(&sheet, 6, flags, &[code]);
        }
    }
}

#[test]
fn each_flag_stands_for_its_own_bound() {
    let sheet = bounded(Some(1.0));
    let flags = field(Section::Rows, 0, "flags");
    let lower = field(Section::Rows, 0, "lower");
    let upper = field(Section::Rows, 0, "upper");
    refused_at(&sheet, 6, flags, &[0], lower);
    refused_at(&sheet, 6, flags, &[1], upper);
    refused_at(&sheet, 6, flags, &[2], lower);
}

#[test]
fn settings_outside_their_ranges_give_4() {
    let sheet = samples::full();
    for number in 0..5 {
        let name = field(Section::Settings, number, "setting");
        for figure in no_figures() {
            refused_there(&sheet, 4, name, &figure.to_le_bytes());
        }
        let most = if number < 3 { 1.0 } else { 2f64.powi(64) };
        refused_there(&sheet, 4, name, &above(most).to_le_bytes());
        for figure in [0.0, 2f64.powi(-64), most] {
            accepted_with(&sheet, name, &figure.to_le_bytes());
        }
    }
}

#[test]
fn whole_figures_above_2_to_the_53_give_4() {
    let sheet = samples::full();
    let most = 1_u64 << 53;
    for name in [
        field(Section::Sketches, 0, "population"),
        field(Section::Sketches, 1, "population"),
        item(Section::Sketches, 1, 0, "lower"),
        item(Section::Sketches, 1, 0, "error"),
        item(Section::Sketches, 2, 0, "lower"),
    ] {
        accepted_with(&sheet, name, &most.to_le_bytes());
        refused_there(&sheet, 4, name, &(most + 1).to_le_bytes());
        refused_there(&sheet, 4, name, &u64::MAX.to_le_bytes());
    }
    let rows = field(Section::Tables, 0, "rows");
    accepted_with(&sheet, rows, &most.to_le_bytes());
    accepted_with(&sheet, rows, &u64::MAX.to_le_bytes());
    refused_there(&sheet, 4, rows, &(most + 1).to_le_bytes());
    refused_there(&sheet, 4, rows, &(u64::MAX - 1).to_le_bytes());
}

/// Scalar bytes that break the rules wherever they stand.
fn bad_scalars() -> Vec<[u8; 19]> {
    let mut out = Vec::new();
    for tag in [7].into_iter().chain(10..255) {
        out.push(scalar_with(&[tag]));
    }
    out.push(scalar_with(&[1, 2]));
    out.push(scalar_with(&[1, 255]));
    for bad in [
        -0.0,
        f64::NAN,
        -f64::NAN,
        f64::INFINITY,
        f64::NEG_INFINITY,
        above(2f64.powi(400)),
        below(2f64.powi(-400)),
        below(-2f64.powi(400)),
        above(-2f64.powi(-400)),
        5e-324,
    ] {
        out.push(scalar_bytes(Some(&Scalar::Float64(bad))));
    }
    for (precision, scale) in [(0, 0), (39, 0), (255, 0), (1, 23), (38, 255)] {
        out.push(scalar_with(&[5, precision, scale]));
    }
    out.extend(bad_decimal_values());
    out.extend(bad_ends());
    out
}

fn scalar_with(start: &[u8]) -> [u8; 19] {
    let mut out = [0; 19];
    out[..start.len()].copy_from_slice(start);
    out
}

/// Decimals whose sixteen bytes are more than a number of 64 bits.
fn bad_decimal_values() -> Vec<[u8; 19]> {
    let of = |value: i128| {
        let mut out = scalar_with(&[5, 38, 22]);
        out[3..].copy_from_slice(&value.to_le_bytes());
        out
    };
    let (least, most) = (i128::from(i64::MIN), i128::from(i64::MAX));
    vec![of(least - 1), of(most + 1), of(i128::MIN), of(i128::MAX)]
}

/// Scalars with a last byte that is not zero, though their types have no use for it.
fn bad_ends() -> Vec<[u8; 19]> {
    let mut scalars = samples::scalars();
    scalars.push(Scalar::Null);
    scalars.retain(|scalar| !matches!(scalar, Scalar::Decimal128 { .. }));
    let mut out: Vec<_> = scalars
        .iter()
        .map(|scalar| scalar_bytes(Some(scalar)))
        .collect();
    out.push(scalar_bytes(None));
    for scalar in &mut out {
        scalar[18] = 1;
    }
    out
}

#[test]
fn the_first_unused_byte_of_a_scalar_counts() {
    let sheet = samples::full();
    let lower = field(Section::LeftColumns, 1, "lower");
    for (tag, used) in [(0, 0), (1, 1), (2, 4), (3, 8), (6, 4), (8, 16), (9, 8)] {
        let mut scalar = scalar_with(&[tag]);
        accepted_with(&sheet, lower, &scalar);
        scalar[1 + used] = 1;
        refused_there(&sheet, 5, lower, &scalar);
    }
    let mut scalar = scalar_bytes(Some(&Scalar::Float64(1.0)));
    accepted_with(&sheet, lower, &scalar);
    scalar[9] = 1;
    refused_there(&sheet, 5, lower, &scalar);
    refused_there(&sheet, 5, lower, &scalar_with(&[255, 1]));
}

#[test]
fn bad_scalars_give_5_everywhere() {
    let sheet = samples::full();
    for name in [
        item(Section::Sketches, 2, 0, "scalar"),
        field(Section::LeftColumns, 0, "lower"),
        field(Section::LeftColumns, 1, "upper"),
        field(Section::RightColumns, 0, "lower"),
        field(Section::RightColumns, 2, "upper"),
        field(Section::Expressions, 2, "scalar"),
    ] {
        for scalar in bad_scalars() {
            refused_there(&sheet, 5, name, &scalar);
        }
        for scalar in samples::scalars() {
            accepted_with(&sheet, name, &scalar_bytes(Some(&scalar)));
        }
    }
}

#[test]
fn null_and_absent_stand_only_where_they_may() {
    let sheet = samples::full();
    let (null, absent) = (scalar_bytes(Some(&Scalar::Null)), scalar_bytes(None));
    let sketch = item(Section::Sketches, 2, 0, "scalar");
    refused_there(&sheet, 5, sketch, &null);
    refused_there(&sheet, 5, sketch, &absent);
    let literal = field(Section::Expressions, 2, "scalar");
    accepted_with(&sheet, literal, &null);
    refused_there(&sheet, 5, literal, &absent);
    for name in ["lower", "upper"] {
        let bound = field(Section::LeftColumns, 0, name);
        accepted_with(&sheet, bound, &null);
        accepted_with(&sheet, bound, &absent);
    }
}

#[test]
fn unknown_codes_give_6() {
    let sheet = samples::full();
    for (section, name) in [
        (Section::Rows, "source"),
        (Section::LeftColumns, "frequency source"),
        (Section::RightColumns, "distinct source"),
        (Section::LeftClasses, "distinct source"),
    ] {
        for source in 0..=4 {
            accepted_with(&sheet, field(section, 0, name), &[source]);
        }
        for source in [5, 6, 128, 255] {
            refused_there(&sheet, 6, field(section, 0, name), &[source]);
        }
    }
    for kind in [0, 3, 255] {
        refused_there(&sheet, 6, field(Section::Keys, 2, "kind"), &[kind]);
    }
    for kind in [7, 8, 255] {
        refused_there(&sheet, 6, field(Section::Expressions, 0, "kind"), &[kind]);
    }
}

/// The first expression that passes the test.
fn first(sheet: &Sheet, test: impl Fn(&Expression) -> bool) -> usize {
    sheet.expressions.iter().position(test).unwrap()
}

#[test]
fn unknown_ops_give_6() {
    let sheet = samples::full();
    let unary = first(&sheet, |e| matches!(e, Expression::Unary { .. }));
    let binary = first(&sheet, |e| matches!(e, Expression::Binary { .. }));
    let nary = first(&sheet, |e| matches!(e, Expression::Nary { .. }));
    for (number, ops) in [(unary, 4), (binary, 11), (nary, 2)] {
        let op = field(Section::Expressions, number, "op");
        for known in 0..ops {
            accepted_with(&sheet, op, &[known]);
        }
        for unknown in [ops, ops + 1, 255] {
            refused_there(&sheet, 6, op, &[unknown]);
        }
    }
}

#[test]
fn unused_fields_of_expressions_give_6_unless_zero() {
    let sheet = samples::full();
    for (number, expression) in sheet.expressions.iter().enumerate() {
        let unused: &[&'static str] = match expression {
            Expression::Literal(_) => &["op", "a", "b"],
            Expression::Column(_) => &["op", "b", "scalar"],
            Expression::Unary { .. } => &["b", "scalar"],
            Expression::Binary { .. } | Expression::Nary { .. } => &["scalar"],
            Expression::Like | Expression::Other => &["op", "a", "b", "scalar"],
        };
        for &name in unused {
            refused_there(&sheet, 6, field(Section::Expressions, number, name), &[1]);
        }
        if unused.contains(&"scalar") {
            let scalar = field(Section::Expressions, number, "scalar");
            refused_there(&sheet, 6, scalar, &[255]);
            let mut last = [0; 19];
            last[18] = 1;
            refused_there(&sheet, 6, scalar, &last);
        }
    }
}

#[test]
fn a_unique_key_refers_to_nothing_else_6() {
    let sheet = samples::full();
    for name in ["referenced table", "referenced name"] {
        for other in [0, 1, 65_534] {
            let unique = field(Section::Keys, 0, name);
            refused_there(&sheet, 6, unique, &u16s(other));
            accepted_with(&sheet, field(Section::Keys, 2, name), &u16s(other));
        }
        accepted_with(&sheet, field(Section::Keys, 2, name), &u16s(65_535));
    }
    for name in ["table", "column name"] {
        for key in [0, 2] {
            accepted_with(&sheet, field(Section::Keys, key, name), &u16s(65_535));
        }
    }
}

#[test]
fn half_a_base_gives_6() {
    let sheet = samples::full();
    let name = field(Section::LeftColumns, 0, "base name");
    let table = field(Section::LeftColumns, 0, "base table");
    refused_there(&sheet, 6, name, &u16s(65_535));
    refused_at(&sheet, 6, table, &u16s(65_535), name);
    let name = field(Section::LeftColumns, 1, "base name");
    let table = field(Section::LeftColumns, 1, "base table");
    refused_there(&sheet, 6, name, &u16s(0));
    refused_at(&sheet, 6, table, &u16s(0), name);
}

#[test]
fn tables_and_columns_out_of_order_give_7() {
    let sheet = samples::full();
    let table = field(Section::Tables, 1, "table");
    refused_there(&sheet, 7, table, &u16s(0));
    refused_at(
        &sheet,
        7,
        table,
        &u16s(65_535),
        field(Section::Tables, 2, "table"),
    );
    let second = field(Section::RightColumns, 1, "column");
    refused_there(&sheet, 7, second, &u16s(2));
    refused_there(&sheet, 7, second, &u16s(1));
    let third = field(Section::RightColumns, 2, "column");
    refused_at(&sheet, 7, second, &u16s(4), third);
    let inner = item(Section::LeftClasses, 1, 1, "column");
    refused_there(&sheet, 7, inner, &u16s(0));
    refused_at(
        &sheet,
        7,
        inner,
        &u16s(2),
        item(Section::LeftClasses, 1, 2, "column"),
    );
}

#[test]
fn columns_from_128_give_7() {
    let sheet = samples::full();
    for name in [
        field(Section::LeftColumns, 1, "column"),
        field(Section::RightColumns, 2, "column"),
        item(Section::LeftClasses, 0, 1, "column"),
        item(Section::RightClasses, 0, 1, "column"),
        field(Section::Expressions, 0, "a"),
    ] {
        accepted_with(&sheet, name, &u16s(127));
        for column in [128, 256, 65_535] {
            refused_there(&sheet, 7, name, &u16s(column));
        }
    }
    let first = field(Section::LeftColumns, 0, "column");
    refused_there(&sheet, 7, first, &u16s(128));
}

#[test]
fn the_same_value_twice_in_a_sketch_gives_7() {
    let sheet = samples::full();
    for (earlier, value) in samples::scalars().iter().enumerate() {
        for later in earlier + 1..samples::scalars().len() {
            let name = item(Section::Sketches, 1, later, "scalar");
            refused_there(&sheet, 7, name, &scalar_bytes(Some(value)));
        }
        let other_sketch = item(Section::Sketches, 2, 0, "scalar");
        accepted_with(&sheet, other_sketch, &scalar_bytes(Some(value)));
    }
}

#[test]
fn a_twin_comes_before_its_own_frequency() {
    let mut sheet = samples::full();
    sheet.sketches[1].items[1] = SketchItem {
        lower: u64::MAX,
        ..sheet.sketches[1].items[0]
    };
    sheet_refused(&sheet, 7, item(Section::Sketches, 1, 1, "scalar"));
}

#[test]
fn numbers_that_name_nothing_give_8() {
    let sheet = samples::full();
    let sketches = sheet.sketches.len() as u16;
    for section in [Section::LeftColumns, Section::RightColumns] {
        let sketch = field(section, 0, "sketch");
        accepted_with(&sheet, sketch, &u16s(sketches - 1));
        accepted_with(&sheet, sketch, &u16s(65_535));
        for none in [sketches, 65_534] {
            refused_there(&sheet, 8, sketch, &u16s(none));
        }
    }
    let expressions = sheet.expressions.len() as u16;
    let conjunct = field(Section::Conjuncts, 1, "expression");
    accepted_with(&sheet, conjunct, &u16s(expressions - 1));
    for none in [expressions, 65_535] {
        refused_there(&sheet, 8, conjunct, &u16s(none));
        let operand = field(Section::Operands, 0, "expression");
        refused_there(&sheet, 8, operand, &u16s(none));
    }
}

#[test]
fn a_sketch_in_a_sheet_without_any_gives_8() {
    let mut sheet = samples::empty();
    sheet.columns[1].push(samples::column(1));
    accepted(&sheet);
    let sketch = field(Section::RightColumns, 0, "sketch");
    refused_there(&sheet, 8, sketch, &u16s(0));
}

#[test]
fn children_not_below_their_parents_give_8() {
    let sheet = samples::full();
    for (number, expression) in sheet.expressions.iter().enumerate() {
        let children: &[&'static str] = match expression {
            Expression::Unary { .. } => &["a"],
            Expression::Binary { .. } => &["a", "b"],
            _ => &[],
        };
        let own = number as u16;
        for child in children {
            let child = field(Section::Expressions, number, child);
            accepted_with(&sheet, child, &u16s(own - 1));
            for bad in [own, own + 1, 65_535] {
                refused_there(&sheet, 8, child, &u16s(bad));
            }
        }
    }
    let last = sheet.expressions.len() as u16 - 1;
    let operand = field(Section::Operands, 2, "expression");
    refused_there(&sheet, 8, operand, &u16s(last - 2));
    accepted_with(&sheet, operand, &u16s(last - 3));
    let operand = field(Section::Operands, 3, "expression");
    refused_there(&sheet, 8, operand, &u16s(last));
}

fn run(op: u8, first: u16, count: u16) -> Expression {
    Expression::Nary { op, first, count }
}

fn sheet_of(expressions: Vec<Expression>, operands: Vec<u16>) -> Sheet {
    Sheet {
        expressions,
        operands,
        ..samples::empty()
    }
}

#[test]
fn runs_out_of_order_give_9_at_a() {
    let other = Expression::Other;
    let a = |number| field(Section::Expressions, number, "a");
    let gap = sheet_of(vec![other, run(0, 1, 1)], vec![0, 0]);
    sheet_refused(&gap, 9, a(1));
    let overlap = sheet_of(vec![other, run(0, 0, 2), run(1, 1, 1)], vec![0, 0]);
    sheet_refused(&overlap, 9, a(2));
    let swapped = sheet_of(vec![other, run(0, 1, 1), run(1, 0, 1)], vec![0, 0]);
    sheet_refused(&swapped, 9, a(1));
    let empty = sheet_of(vec![other, run(0, 0, 1), run(1, 0, 0)], vec![0]);
    sheet_refused(&empty, 9, a(2));
    let ahead = sheet_of(vec![run(0, 1, 0)], vec![]);
    sheet_refused(&ahead, 9, a(0));
    let good = sheet_of(vec![run(0, 0, 0), run(1, 0, 1), run(0, 1, 0)], vec![0]);
    accepted(&good);
}

#[test]
fn runs_that_do_not_fill_the_section_give_9_at_its_count() {
    let other = Expression::Other;
    let at = count(Section::Operands);
    let more = sheet_of(vec![other, run(0, 0, 1)], vec![0, 0]);
    sheet_refused(&more, 9, at);
    let fewer = sheet_of(vec![other, run(0, 0, 2)], vec![0]);
    sheet_refused(&fewer, 9, at);
    let none = sheet_of(vec![other], vec![0]);
    sheet_refused(&none, 9, at);
    let long = sheet_of(vec![other, run(0, 0, 65_535)], vec![0; 512]);
    sheet_refused(&long, 9, at);
}

#[test]
fn runs_may_be_longer_than_numbers_go() {
    let long = vec![run(0, 0, 65_535), run(0, 65_535, 65_535), run(0, 65_534, 1)];
    sheet_refused(
        &sheet_of(long, vec![]),
        9,
        field(Section::Expressions, 2, "a"),
    );
    let longest = vec![run(0, 0, 65_535), run(0, 65_535, 65_535)];
    sheet_refused(&sheet_of(longest, vec![]), 9, count(Section::Operands));
}

#[test]
fn a_count_failing_twice_gives_3() {
    let sheet = sheet_of(vec![Expression::Other, run(0, 0, 1)], vec![0; 513]);
    sheet_refused(&sheet, 3, count(Section::Operands));
    let sheet = sheet_of(vec![Expression::Other, run(0, 0, 513)], vec![0; 513]);
    sheet_refused(&sheet, 3, count(Section::Operands));
}

#[test]
fn a_shared_and_or_or_gives_9_at_the_operand() {
    let other = Expression::Other;
    let at = |number| field(Section::Operands, number, "expression");
    for op in [0, 1] {
        let within = vec![other, run(op, 0, 1), run(0, 1, 3)];
        sheet_refused(&sheet_of(within, vec![0, 1, 0, 1]), 9, at(3));
        let across = vec![run(op, 0, 0), run(0, 0, 1), run(1, 1, 1)];
        sheet_refused(&sheet_of(across, vec![0, 0]), 9, at(1));
    }
    let others = vec![other, run(0, 0, 2), run(1, 2, 2)];
    accepted(&sheet_of(others, vec![0, 0, 0, 1]));
}

#[test]
fn an_and_that_is_a_child_or_a_conjunct_is_not_shared() {
    let not = Expression::Unary { op: 0, child: 0 };
    let both = Expression::Binary {
        op: 0,
        left: 0,
        right: 0,
    };
    let mut sheet = sheet_of(vec![run(0, 0, 0), not, both, run(1, 0, 2)], vec![0, 1]);
    sheet.conjuncts = vec![0, 0, 3];
    accepted(&sheet);
}

#[test]
fn bytes_left_over_give_10() {
    for sheet in [samples::empty(), samples::full(), samples::largest()] {
        let mut bytes = write(&sheet);
        let end = bytes.len();
        for _ in 0..3 {
            bytes.push(0);
            assert_eq!(read(&bytes), Err(sheet_refusal(10, end, "end")));
        }
    }
}

/// Whatever is accepted is written back as it was, and every refusal has a number and a place
/// of its own.
fn judged(bytes: &[u8]) -> Result<Read, Refusal> {
    let judged = read(bytes);
    match &judged {
        Ok(read) => assert_eq!(write(&read.sheet), bytes),
        Err(refusal) => {
            assert!((1..=10).contains(&refusal.number));
            assert!(refusal.at <= bytes.len());
        }
    }
    judged
}

#[test]
fn a_changed_byte_is_refused_no_earlier_than_its_field() {
    let sheet = samples::full();
    let bytes = write(&sheet);
    let all = fields(&sheet);
    for field in &all {
        let shifts = matches!(field.holds, Holds::Count | Holds::Length);
        for at in field.at..field.at + field.size {
            for change in [1, 2, 4, 8, 16, 32, 64, 128, 255] {
                let mut changed = bytes.clone();
                changed[at] ^= change;
                let Err(refused) = judged(&changed) else {
                    continue;
                };
                assert!(refused.at >= field.at);
                let name =
                    |field: &Field| refused == refusal(refused.number, field.at, name_of(field));
                assert!(shifts || all.iter().any(name), "{refused:?}");
            }
        }
    }
}

#[test]
fn random_changes_are_judged() {
    let mut state = 0x9e37_79b9_7f4a_7c15_u64;
    let mut draw = move |end: usize| {
        state ^= state << 13;
        state ^= state >> 7;
        state ^= state << 17;
        (state >> 16) as usize % end
    };
    let bytes = write(&samples::full());
    let mut seen = [0; 11];
    for _ in 0..20_000 {
        let mut changed = bytes.clone();
        for _ in 0..=draw(3) {
            let at = draw(changed.len());
            changed[at] = draw(256) as u8;
        }
        if draw(8) == 0 {
            changed.truncate(draw(changed.len()));
        }
        let number = judged(&changed).map_or_else(|refusal| refusal.number, |_| 0);
        seen[usize::from(number)] += 1;
    }
    for number in [0, 2, 3, 4, 5, 6, 7, 8, 9] {
        assert!(seen[number] > 0, "{seen:?}");
    }
}

#[test]
fn noise_is_refused() {
    let mut state = 1_u64;
    for length in 0..300 {
        let noise: Vec<u8> = (0..length)
            .map(|_| {
                state ^= state << 13;
                state ^= state >> 7;
                state ^= state << 17;
                (state >> 32) as u8
            })
            .collect();
        assert!(judged(&noise).is_err());
    }
}
