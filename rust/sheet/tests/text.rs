//! A sheet's text is read back as the sheet.

use sheet::generator::sheet;
use sheet::samples::{empty, from_catalog, full, largest, scalars};
use sheet::text::{parse, print, read};
use sheet::values::{Estimate, Expression, Scalar, Section, Sheet, Sketch};
use sheet::{reader, worked, writer};

const SEEDS: u64 = 5_000;

/// The text is read back as the sheet, to the last bit.
fn comes_back(sheet: &Sheet, name: &str) {
    let text = print(sheet);
    match parse(&text) {
        Ok(back) => {
            assert_eq!(back, *sheet, "{name}");
            assert_eq!(writer::write(&back), writer::write(sheet), "{name}");
        }
        Err(error) => panic!("{name}: {error}\n{text}"),
    }
}

#[test]
fn generated_sheets_come_back() {
    for seed in 0..SEEDS {
        comes_back(&sheet(seed), &format!("seed {seed}"));
    }
}

#[test]
fn hand_made_sheets_come_back() {
    comes_back(&empty(), "empty");
    comes_back(&full(), "full");
    comes_back(&largest(), "largest");
    for (number, sheet) in worked::accepted().iter().enumerate() {
        comes_back(sheet, &format!("worked {number}"));
    }
    for (number, sheet) in worked::refused().iter().enumerate() {
        comes_back(sheet, &format!("refused {number}"));
    }
}

#[test]
fn floats_come_back_to_the_bit_and_can_be_read() {
    let cases = [
        (0.0, "0"),
        (-0.0, "-0"),
        (0.04, "0.04"),
        (0.1 + 0.2, "0.30000000000000004"),
        (4960.0, "4960"),
        (1e15, "1000000000000000"),
        (1e16, "1e16"),
        (1e-5, "0.00001"),
        (1e-19, "1e-19"),
        (-2.5e-7, "-2.5e-7"),
        (2f64.powi(64), "1.8446744073709552e19"),
        (f64::from_bits(1), "5e-324"),
        (f64::MAX, "1.7976931348623157e308"),
    ];
    for (value, word) in cases {
        let text = print(&Sheet {
            rows: [from_catalog(value), from_catalog(1.0)],
            ..empty()
        });
        assert!(
            text.starts_with(&format!("[rows]\nleft catalog {word}\n")),
            "{text}"
        );
        let back = parse(&text).unwrap().rows[0].value;
        assert_eq!(back.to_bits(), value.to_bits(), "{word}");
    }
}

/// The whole text of a sheet with each kind of record.
#[test]
fn the_text_of_each_record() {
    let text = "\
[rows]
left exact 8 lower 1 upper 9
right default 4 upper 5

[settings]
like_selectivity 0.1
default_predicate_selectivity 0.25
range_fallback_selectivity 0.33
unknown_scan_rows 1000
unknown_column_ndv_cap 100

[sketches]
0: population 7
  item int32 5 lower 3 error 1
  item boolean true lower 0 error 0
1: population 0

[tables]
table 1 rows 8
table 65535 rows unknown

[keys]
unique table 2 name 0
foreign table 1 name 3 references table 2 name 0

[left columns]
column 1 base table 1 name 3 lower int32 0 upper null frequency sketch 8 distinct derived 4 lower 2 sketch 0
column 127 frequency catalog 8 distinct catalog 4

[right columns]
column 2 upper float64 1e-19 frequency catalog 4 distinct catalog 4

[left classes]
distinct catalog 4 columns 1 127

[right classes]
distinct catalog 4 lower 1 columns 2 3 4

[expressions]
0: column 1
1: literal decimal128 -1234 precision 10 scale 2
2: literal interval_month_day_nano months -1 days 2 nanoseconds 3
3: literal interval_day_time days 1 milliseconds -2
4: literal date32 19000
5: literal int64 -5
6: not 0
7: is_not_distinct_from 0 1
8: and
9: or 6 7 8
10: like
11: other

[conjuncts]
9
11
";
    assert_eq!(print(&parse(text).unwrap()), text);
}

/// The codes of ops and sources, which a text has by name.
#[test]
fn names_stand_for_their_codes() {
    let unary = ["not", "is_null", "is_not_null", "negate"];
    let binary = [
        "eq",
        "is_not_distinct_from",
        "not_eq",
        "lt",
        "lt_eq",
        "gt",
        "gt_eq",
        "add",
        "subtract",
        "multiply",
        "divide",
    ];
    for (op, name) in (0..).zip(unary) {
        assert_eq!(
            only(&format!("{name} 7")),
            Expression::Unary { op, child: 7 }
        );
    }
    for (op, name) in (0..).zip(binary) {
        let (left, right) = (7, 8);
        let due = Expression::Binary { op, left, right };
        assert_eq!(only(&format!("{name} 7 8")), due);
    }
    for (op, name) in (0..).zip(["and", "or"]) {
        let (first, count) = (0, 2);
        let due = Expression::Nary { op, first, count };
        assert_eq!(only(&format!("{name} 7 8")), due);
    }
    for (source, name) in (0..).zip(["exact", "catalog", "sketch", "derived", "default"]) {
        let text = format!("[rows]\nleft {name} 1\nright {name} 2 lower 1");
        let lower = Some(1.0);
        let due = [(1.0, None), (2.0, lower)].map(|(value, lower)| Estimate {
            source,
            value,
            lower,
            upper: None,
        });
        assert_eq!(parse(&text).unwrap().rows, due);
    }
}

/// The expression of a text that has one.
fn only(line: &str) -> Expression {
    let text = format!("[rows]\nleft exact 1\nright exact 1\n[expressions]\n0: {line}");
    parse(&text).unwrap().expressions[0]
}

#[test]
fn each_scalar_comes_back() {
    for scalar in scalars().into_iter().chain([Scalar::Null]) {
        let sheet = Sheet {
            expressions: vec![Expression::Literal(scalar)],
            ..empty()
        };
        comes_back(&sheet, &format!("{scalar:?}"));
    }
}

#[test]
fn settings_that_are_left_out_are_the_defaults() {
    let sheet = parse("[rows]\nleft catalog 100\nright catalog 50").unwrap();
    assert_eq!(sheet, empty());
}

#[test]
fn comments_blanks_and_empty_sections_count_for_nothing() {
    let text = "# rows\n\n [rows] # of both\n\tleft   catalog 100#left\nright catalog 50\r\n\
                [tables]\n  # none\n[left   columns]\n[conjuncts]";
    assert_eq!(parse(text).unwrap(), empty());
}

#[test]
fn sections_that_are_empty_are_not_written() {
    let text = print(&empty());
    let headings: Vec<_> = text.lines().filter(|line| line.starts_with('[')).collect();
    assert_eq!(headings, ["[rows]", "[settings]"]);
}

#[test]
fn a_code_that_no_rule_allows_is_not_read_back() {
    let mut sheet = empty();
    sheet.rows[0].source = 5;
    assert!(print(&sheet).starts_with("[rows]\nleft ?5 100\n"));
    assert_eq!(parse(&print(&sheet)).unwrap_err().line, 2);
    sheet = Sheet {
        expressions: vec![Expression::Nary {
            op: 2,
            first: 1,
            count: 9,
        }],
        ..empty()
    };
    assert!(print(&sheet).ends_with("[expressions]\n0: ?2\n"));
}

/// Line numbers of `[sketches]` to `[conjuncts]` below.
const PLACED: &str = "\
[rows]
left exact 1
right exact 1
[sketches]
0: population 1
item int32 1 lower 1 error 0
1: population 2

item int32 1 lower 1 error 0
item int32 2 lower 1 error 0
[left classes]
distinct exact 1 columns 1 2
[expressions]
0: other
1: and 0
2: or 1 0
[conjuncts]
2
";

#[test]
fn lines_are_those_of_the_records() {
    let lines = read(PLACED).unwrap().lines;
    let cases = [
        ((Section::Rows, None, None), Some(1)),
        ((Section::Rows, Some(1), None), Some(3)),
        ((Section::Settings, Some(1), None), None),
        ((Section::Sketches, Some(0), Some(0)), Some(6)),
        ((Section::Sketches, Some(1), None), Some(7)),
        ((Section::Sketches, Some(1), Some(1)), Some(10)),
        ((Section::LeftClasses, Some(0), Some(1)), Some(12)),
        ((Section::RightClasses, None, None), None),
        ((Section::Expressions, None, None), Some(13)),
        ((Section::Operands, None, None), Some(13)),
        ((Section::Operands, Some(0), None), Some(15)),
        ((Section::Operands, Some(2), None), Some(16)),
        ((Section::Conjuncts, Some(0), None), Some(18)),
    ];
    for ((section, record, item), line) in cases {
        let found = lines.line(section, record, item);
        assert_eq!(found, line, "{section:?} {record:?} {item:?}");
    }
}

/// The lines of a document that are set apart as the first example.
fn example(document: &str) -> String {
    let apart = document
        .lines()
        .skip_while(|line| !line.starts_with("    "));
    let lines = apart.take_while(|line| line.is_empty() || line.starts_with("    "));
    lines.map(|line| format!("{}\n", line.trim())).collect()
}

#[test]
fn the_documented_example_is_a_sheet() {
    let text = example(include_str!("../../../docs/TEXT.md"));
    let sheet = parse(&text).unwrap_or_else(|error| panic!("{error}"));
    comes_back(&sheet, "docs/TEXT.md");
    let read = reader::read(&writer::write(&sheet));
    assert_eq!(read.map(|read| read.sheet), Ok(sheet.clone()));
    let kinds = sheet.expressions.len();
    assert_eq!((kinds, sheet.conjuncts), (18, vec![12, 14, 17]));
}

/// Counts that lose their high bits in bytes belong to sheets that are too long.
#[test]
fn a_text_of_too_many_records_is_refused_by_its_length() {
    let many = Sheet {
        conjuncts: vec![0; 65_536],
        ..empty()
    };
    let items = Sheet {
        sketches: vec![Sketch {
            population: 0,
            items: vec![full().sketches[2].items[0]; 65_536],
        }],
        ..empty()
    };
    for sheet in [many, items] {
        let back = parse(&print(&sheet)).unwrap();
        let refusal = reader::read(&writer::write(&back)).unwrap_err();
        assert_eq!(refusal.number, 1);
    }
}
