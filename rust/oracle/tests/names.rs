//! The names in a sheet's text are the source's, each with the source's place.

use oracle::analysis::{CardinalityEstimationConfig, EstimateSource};
use oracle::{BinaryOp, NaryOp, UnaryOp};
use sheet::samples::empty;
use sheet::text;
use sheet::values::{Estimate, Expression, Sheet};
use std::fmt::Debug;

/// A name of the source in small letters, with a line under each gap.
fn small(name: impl Debug) -> String {
    let name = format!("{name:?}");
    let parts = name.chars().enumerate().map(|(place, letter)| {
        let gap = letter.is_uppercase() && place > 0;
        let line = if gap { "_" } else { "" };
        format!("{line}{}", letter.to_lowercase())
    });
    parts.collect()
}

/// What the text of an expression has behind its number.
fn said(expression: Expression) -> String {
    let sheet = Sheet {
        expressions: vec![expression],
        ..empty()
    };
    let line = text::expression(&sheet, 0).unwrap();
    line.strip_prefix("0: ").unwrap().to_string()
}

#[test]
fn unary_ops() {
    use UnaryOp::*;
    for name in [Not, IsNull, IsNotNull, Negate] {
        let op = name as u8;
        let due = format!("{} 5", small(name));
        assert_eq!(said(Expression::Unary { op, child: 5 }), due);
    }
}

#[test]
fn binary_ops() {
    use BinaryOp::*;
    let all = [
        Eq,
        IsNotDistinctFrom,
        NotEq,
        Lt,
        LtEq,
        Gt,
        GtEq,
        Add,
        Subtract,
        Multiply,
        Divide,
    ];
    for name in all {
        let (op, left, right) = (name as u8, 5, 6);
        let due = format!("{} 5 6", small(name));
        assert_eq!(said(Expression::Binary { op, left, right }), due);
    }
}

#[test]
fn nary_ops() {
    for name in [NaryOp::And, NaryOp::Or] {
        let (op, first, count) = (name as u8, 0, 0);
        assert_eq!(said(Expression::Nary { op, first, count }), small(name));
    }
}

#[test]
fn sources() {
    use EstimateSource::*;
    for name in [Exact, Catalog, Sketch, Derived, Default] {
        let estimate = Estimate {
            source: name as u8,
            value: 5.0,
            lower: None,
            upper: None,
        };
        assert_eq!(text::estimate(&estimate), format!("{} 5", small(name)));
    }
}

#[test]
fn settings_by_their_names_and_defaults() {
    let config = CardinalityEstimationConfig::default();
    let fields = [
        ("like_selectivity", config.like_selectivity),
        (
            "default_predicate_selectivity",
            config.default_predicate_selectivity,
        ),
        (
            "range_fallback_selectivity",
            config.range_fallback_selectivity,
        ),
        ("unknown_scan_rows", config.unknown_scan_rows),
        ("unknown_column_ndv_cap", config.unknown_column_ndv_cap),
    ];
    let sheet = text::parse("[rows]\nleft exact 1\nright exact 1").unwrap();
    assert_eq!(sheet.settings, fields.map(|(_, value)| value));
    let text = text::print(&sheet);
    let (_, settings) = text.split_once("[settings]\n").unwrap();
    let due = fields.map(|(name, value)| format!("{name} {value}\n"));
    assert_eq!(settings, due.concat());
}
