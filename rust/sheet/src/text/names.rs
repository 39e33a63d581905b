//! The names of sections, and those of the source for its codes: the place in a list is the code.

use crate::values::Section;

/// `EstimateSource`.
pub(super) const SOURCES: [&str; 5] = ["exact", "catalog", "sketch", "derived", "default"];

/// The fields of `CardinalityEstimationConfig`.
pub(super) const SETTINGS: [&str; 5] = [
    "like_selectivity",
    "default_predicate_selectivity",
    "range_fallback_selectivity",
    "unknown_scan_rows",
    "unknown_column_ndv_cap",
];

/// `UnaryOp`.
pub(super) const UNARY_OPS: [&str; 4] = ["not", "is_null", "is_not_null", "negate"];

/// `BinaryOp`.
pub(super) const BINARY_OPS: [&str; 11] = [
    "eq",
    "is_not_distinct_from",
    "not_eq",
    "lt",
    "lt_eq",
    "gt",
    "gt_eq",
    "add",
    "subtract",
    "multiply",
    "divide",
];

/// `NaryOp`.
pub(super) const NARY_OPS: [&str; 2] = ["and", "or"];

/// The figures of `LeftEqualityCoverage`, in the order of an answer.
pub const COVERAGE_FIGURES: [&str; 5] = [
    "input_distinct",
    "input_non_null_fraction",
    "intersection_distinct",
    "non_null_match_probability",
    "null_match_probability",
];

/// The sections that a text may have behind its rows, first to last.
pub(super) const AFTER_ROWS: [Section; 10] = [
    Section::Settings,
    Section::Sketches,
    Section::Tables,
    Section::Keys,
    Section::LeftColumns,
    Section::RightColumns,
    Section::LeftClasses,
    Section::RightClasses,
    Section::Expressions,
    Section::Conjuncts,
];

/// A section's name, as its heading and messages have it.
pub fn section_name(section: Section) -> &'static str {
    match section {
        Section::Rows => "rows",
        Section::Settings => "settings",
        Section::Sketches => "sketches",
        Section::Tables => "tables",
        Section::Keys => "keys",
        Section::LeftColumns => "left columns",
        Section::RightColumns => "right columns",
        Section::LeftClasses => "left classes",
        Section::RightClasses => "right classes",
        Section::Expressions => "expressions",
        Section::Operands => "operands",
        Section::Conjuncts => "conjuncts",
    }
}

/// The line that a section begins with.
pub(super) fn heading(section: Section) -> String {
    format!("[{}]", section_name(section))
}
