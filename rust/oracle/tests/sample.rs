//! The stored answer of the sample has the source's figures.

use oracle::copies::with_power::answers;
use sheet::text;
use sheet::values::Estimate;

const SAMPLE: &str = include_str!("../../../samples/option-block.sheet");
const STORED: &str = include_str!("../../../samples/option-block.join.txt");

/// The stored lines in turn, without their indent and the blanks inside.
fn lines() -> Vec<String> {
    let lines = STORED.lines();
    lines
        .map(|line| line.split_whitespace().collect::<Vec<_>>().join(" "))
        .collect()
}

fn derived(name: &str, estimate: &Estimate) -> String {
    let [value, lower, upper] = [Some(estimate.value), estimate.lower, estimate.upper]
        .map(|figure| text::number(figure.unwrap()));
    format!("{name} {value} (derived), from {lower} to {upper}")
}

#[test]
fn the_figures_of_the_join() {
    let join = answers(&text::parse(SAMPLE).unwrap()).join;
    let lines = lines();
    assert_eq!(lines[0], derived("selectivity", &join.selectivity));
    assert_eq!(lines[1], derived("match", &join.matching));
    assert_eq!(
        lines[2],
        format!("residual {}", text::number(join.residual))
    );
}

#[test]
fn the_classes_coverages_and_columns_of_the_join() {
    let join = answers(&text::parse(SAMPLE).unwrap()).join;
    let lines = lines();
    let named = |name: &str| -> Vec<String> {
        let begins = format!("{name} ");
        let values = lines.iter().filter_map(|line| line.strip_prefix(&begins));
        values.map(str::to_string).collect()
    };
    let numbers = |numbers: &[u16]| numbers.iter().map(u16::to_string).collect::<Vec<_>>();
    let classes: Vec<_> = join.classes.iter().collect();
    let columns: Vec<_> = classes
        .iter()
        .map(|class| numbers(&class.columns).join(" "))
        .collect();
    assert_eq!(named("columns"), columns);
    let distincts: Vec<_> = classes
        .iter()
        .map(|class| {
            let source = text::source_name(class.distinct.source);
            format!("{} ({source})", text::number(class.distinct.value))
        })
        .collect();
    assert_eq!(named("distinct"), distincts);
    let covered: Vec<_> = join.coverages.iter().map(|of| of.column).collect();
    assert_eq!(named("column"), numbers(&covered));
    for (place, name) in text::COVERAGE_FIGURES.iter().enumerate() {
        let figures = join
            .coverages
            .iter()
            .map(|of| text::number(of.figures[place]));
        assert_eq!(named(name), figures.collect::<Vec<_>>(), "{name}");
    }
    let ordinary = join.coverages.iter().map(|of| of.ordinary.to_string());
    assert_eq!(named("ordinary_non_null"), ordinary.collect::<Vec<_>>());
    assert_eq!(
        named("non-null columns"),
        [numbers(&join.non_null).join(" ")]
    );
}
