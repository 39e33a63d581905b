//! The answers in words.

use sheet::answers::{Coverage, Join};
use sheet::text::{self, COVERAGE_FIGURES};
use sheet::values::{Class, Estimate, Sheet};

/// Figures stand in one column behind their names.
const WIDTH: usize = 32;

/// A name and what stands behind it.
fn line(name: &str, value: &str) -> String {
    format!("{name:WIDTH$}{value}\n")
}

/// A name, and what there is under it.
fn list(name: &str, parts: impl Iterator<Item = String>) -> String {
    let parts: String = parts.collect();
    match parts.is_empty() {
        true => line(name, "none"),
        false => format!("{name}\n{parts}"),
    }
}

/// "0.04 (derived), from 0 to 1".
fn estimate(estimate: &Estimate) -> String {
    let bounds = match (estimate.lower, estimate.upper) {
        (None, None) => String::new(),
        (Some(lower), None) => format!(", from {}", text::number(lower)),
        (None, Some(upper)) => format!(", up to {}", text::number(upper)),
        (Some(lower), Some(upper)) => {
            format!(", from {} to {}", text::number(lower), text::number(upper))
        }
    };
    let source = text::source_name(estimate.source);
    format!("{} ({source}){bounds}", text::number(estimate.value))
}

/// A join's answer.
pub fn join(join: &Join) -> String {
    [
        line("selectivity", &estimate(&join.selectivity)),
        line("match", &estimate(&join.matching)),
        line("residual", &text::number(join.residual)),
        list("classes", join.classes.iter().map(class)),
        list("coverages", join.coverages.iter().map(coverage)),
        line("non-null columns", &numbers(&join.non_null)),
    ]
    .concat()
}

fn numbers(numbers: &[u16]) -> String {
    let words: Vec<_> = numbers.iter().map(u16::to_string).collect();
    match words.is_empty() {
        true => "none".into(),
        false => words.join(" "),
    }
}

fn class(class: &Class) -> String {
    let columns = line("  columns", &numbers(&class.columns));
    columns + &line("    distinct", &estimate(&class.distinct))
}

fn coverage(coverage: &Coverage) -> String {
    let column = line("  column", &coverage.column.to_string());
    let figures = COVERAGE_FIGURES.iter().zip(coverage.figures);
    let figures = figures.map(|(name, figure)| {
        let name = format!("    {name}");
        line(&name, &text::number(figure))
    });
    let ordinary = line("    ordinary_non_null", &coverage.ordinary.to_string());
    column + &figures.collect::<String>() + &ordinary
}

/// A predicate's answer, under the expression that was asked about.
pub fn predicate(sheet: &Sheet, number: u16, of: &Estimate) -> String {
    asked(sheet, number) + &line("selectivity", &estimate(of))
}

/// A split's answer, under the expression that was asked about.
pub fn split(sheet: &Sheet, number: u16, conjuncts: &[u16]) -> String {
    let lines = conjuncts
        .iter()
        .map(|conjunct| format!("  {}\n", expression(sheet, *conjunct)));
    asked(sheet, number) + &list("conjuncts", lines)
}

fn asked(sheet: &Sheet, number: u16) -> String {
    line("expression", &expression(sheet, number))
}

/// An expression's line. The library has answered for it, so the sheet has it.
fn expression(sheet: &Sheet, number: u16) -> String {
    text::expression(sheet, number).unwrap_or_else(|| number.to_string())
}
