//! The answers in words.

use crate::run::{sample, sheet};
use sheet::generator;
use sheet::samples::empty;
use sheet::text;
use sheet::values::{Estimate, Sheet};
use sheet::{worked, writer};

fn option_block() -> String {
    sample("option-block.sheet").to_str().unwrap().to_string()
}

/// The stored answer is `sheet join samples/option-block.sheet`.
#[test]
fn the_join_of_the_option_block() {
    let due = std::fs::read_to_string(sample("option-block.join.txt")).unwrap();
    assert_eq!(sheet(&["join", &option_block()], b"").words(), due);
}

#[test]
fn a_predicate_of_the_option_block() {
    let due = "\
expression                      15: is_not_null 14
selectivity                     0.85 (derived), from 0 to 1
";
    assert_eq!(
        sheet(&["predicate", "15", &option_block()], b"").words(),
        due
    );
}

#[test]
fn a_split_of_the_option_block() {
    let due = "\
expression                      18: and 8 17 16
conjuncts
  8: gt_eq 6 7
  13: or 10 12
  15: is_not_null 14
  16: other
";
    assert_eq!(sheet(&["split", "18", &option_block()], b"").words(), due);
}

#[test]
fn a_split_into_nothing() {
    let of = writer::write(&worked::ands_and_ors());
    let due = "expression                      3: and\nconjuncts                       none\n";
    assert_eq!(sheet(&["split", "3"], &of).words(), due);
}

#[test]
fn an_empty_join() {
    let due = "\
selectivity                     1 (derived), from 0 to 1
match                           1 (derived), from 0 to 1
residual                        1
classes                         none
coverages                       none
non-null columns                none
";
    assert_eq!(sheet(&["join"], &writer::write(&empty())).words(), due);
}

/// A distinct with each choice of bounds, which the join hands on.
#[test]
fn the_bounds_of_an_estimate() {
    let cases = [
        (None, None, "8 (exact)"),
        (Some(2.0), None, "8 (exact), from 2"),
        (None, Some(9.0), "8 (exact), up to 9"),
        (Some(2.0), Some(9.0), "8 (exact), from 2 to 9"),
    ];
    for (lower, upper, due) in cases {
        let class = sheet::values::Class {
            distinct: Estimate {
                source: 0,
                value: 8.0,
                lower,
                upper,
            },
            columns: vec![1, 3],
        };
        let of = Sheet {
            classes: [vec![class], vec![]],
            ..empty()
        };
        let words = sheet(&["join"], &writer::write(&of)).words();
        let line = format!(
            "\n  columns                       1 3\n    distinct                    {due}\n"
        );
        assert!(words.contains(&line), "{words}");
    }
}

#[test]
fn bytes_and_text_get_the_same_answers() {
    for seed in 0..40 {
        let of = generator::sheet(seed);
        let (bytes, words) = (writer::write(&of), text::print(&of));
        let commands: [&[&str]; 3] = [&["join"], &["predicate", "0"], &["split", "0"]];
        for command in commands {
            let run = sheet(command, &bytes);
            assert_eq!(sheet(command, words.as_bytes()), run, "seed {seed}");
        }
    }
}

/// A marked case of document 01, as words.
#[test]
fn a_null_safe_equality() {
    let due = "\
selectivity                     0.171875 (derived), from 0 to 1
match                           0.625 (derived), from 0 to 1
residual                        1
classes
  columns                       1 2
    distinct                    4 (catalog)
coverages
  column                        1
    input_distinct              8
    input_non_null_fraction     0.75
    intersection_distinct       4
    non_null_match_probability  0.375
    null_match_probability      0.25
    ordinary_non_null           false
non-null columns                none
";
    let of = writer::write(&worked::a_null_safe_equality());
    assert_eq!(sheet(&["join"], &of).words(), due);
}
