//! The three answers, as the source gives them on a sheet.

pub use sheet::answers::{Coverage, Join, predicate_bytes, split_bytes};
use sheet::values::Estimate;

/// All answers on one sheet: the join, and for each expression its predicate and its split.
#[derive(Debug, Clone, PartialEq)]
pub struct Answers {
    pub join: Join,
    pub predicates: Vec<Estimate>,
    pub splits: Vec<Vec<u16>>,
}

fn estimate_figures(estimate: &Estimate) -> impl Iterator<Item = f64> {
    [Some(estimate.value), estimate.lower, estimate.upper]
        .into_iter()
        .flatten()
}

impl Answers {
    /// Every figure of the answers.
    pub fn figures(&self) -> Vec<f64> {
        let join = &self.join;
        let estimates = [&join.selectivity, &join.matching].into_iter();
        let estimates = estimates.chain(join.classes.iter().map(|class| &class.distinct));
        let mut all: Vec<f64> = estimates
            .chain(&self.predicates)
            .flat_map(estimate_figures)
            .collect();
        all.push(join.residual);
        all.extend(join.coverages.iter().flat_map(|coverage| coverage.figures));
        all
    }
}
