//! The worked cases and limits of document 01, through bytes, with the source's power and with
//! document 01's.

use oracle::answer::{Answers, predicate_bytes, split_bytes};
use sheet::reader::read;
use sheet::samples::{empty, from_catalog};
use sheet::values::{Class, Sheet};
use sheet::worked;
use sheet::writer::write;

/// The answers with both powers. Whatever a case says holds of each.
fn both(sheet: &Sheet) -> [Answers; 2] {
    let sheet = read(&write(sheet)).unwrap().sheet;
    [
        oracle::analysis::answers(&sheet),
        oracle::copies::with_power::answers(&sheet),
    ]
}

#[test]
fn an_equality() {
    for answers in both(&worked::an_equality()) {
        assert_eq!(answers.join.selectivity.value, 0.04);
        assert_eq!(answers.join.matching.value, 1.0);
        let block = Class {
            distinct: from_catalog(10.0),
            columns: vec![1, 2],
        };
        assert_eq!(answers.join.classes, [block]);
    }
}

#[test]
fn a_residual() {
    for answers in both(&worked::a_residual()) {
        assert_eq!(answers.join.matching.value, 0.4375);
        assert_eq!(answers.join.residual, 0.25);
    }
    let taken = oracle::watch::take_powers();
    assert_eq!(taken, [(0.75, 2.0)]);
}

#[test]
fn a_null_safe_equality() {
    for answers in both(&worked::a_null_safe_equality()) {
        assert_eq!(answers.join.selectivity.value, 0.171875);
        assert_eq!(answers.join.matching.value, 0.625);
    }
}

#[test]
fn disjoint_bounds() {
    for answers in both(&worked::disjoint_bounds()) {
        assert_eq!(answers.join.selectivity.value, 0.0);
        assert_eq!(answers.join.matching.value, 0.0);
        assert_eq!(answers.join.classes.len(), 1);
    }
}

#[test]
fn touching_bounds() {
    for answers in both(&worked::touching_bounds()) {
        assert_eq!(answers.join.coverages[0].figures[2], 1.0);
    }
}

#[test]
fn non_null_columns() {
    for answers in both(&worked::a_chain()) {
        assert_eq!(answers.join.non_null, [1, 2, 3]);
    }
    for answers in both(&worked::a_self_equality()) {
        assert_eq!(answers.join.non_null, [1]);
        assert!(answers.join.classes.is_empty());
        assert_eq!(answers.join.selectivity.value, 1.0);
    }
}

#[test]
fn predicates() {
    for answers in both(&worked::itself()) {
        assert_eq!(answers.predicates[3].value, 0.75);
        assert_eq!(answers.predicates[4].value, 1.0);
        assert_eq!(predicate_bytes(&answers.predicates[3]).len(), 26);
    }
}

#[test]
fn ands_and_ors() {
    for answers in both(&worked::ands_and_ors()) {
        assert_eq!(answers.predicates[2].value, 0.4375);
        assert_eq!(answers.predicates[3].value, 1.0);
        assert_eq!(answers.predicates[4].value, 0.0);
        assert_eq!(split_bytes(&answers.splits[3]), [0, 0]);
        assert_eq!(answers.splits[6], [0, 2, 1]);
    }
}

#[test]
fn the_empty_case_in_bytes() {
    let one = "000000000000f03f";
    let zero = "0000000000000000";
    let estimate = format!("0303{one}{zero}{one}");
    let expected = format!("0100{estimate}{estimate}{one}000000000000");
    for answers in both(&empty()) {
        let bytes = answers.join.bytes();
        let written: String = bytes.iter().map(|byte| format!("{byte:02x}")).collect();
        assert_eq!(written, expected);
        assert_eq!(bytes.len(), 68);
    }
}

#[test]
fn limits() {
    for answers in both(&worked::most_conjuncts()) {
        assert_eq!(answers.join.selectivity.value, 0.04);
    }
    for sheet in worked::refused() {
        assert_eq!(read(&write(&sheet)).map(|_| ()).unwrap_err().number, 3);
    }
}

#[test]
fn the_default_settings_are_the_sources() {
    let defaults = oracle::analysis::CardinalityEstimationConfig::default();
    let [like, predicate, range, rows, ndv] = empty().settings;
    assert_eq!(defaults.like_selectivity, like);
    assert_eq!(defaults.default_predicate_selectivity, predicate);
    assert_eq!(defaults.range_fallback_selectivity, range);
    assert_eq!(defaults.unknown_scan_rows, rows);
    assert_eq!(defaults.unknown_column_ndv_cap, ndv);
}
