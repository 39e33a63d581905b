//! Sketches of frequent values.

use super::scalars::{Domain, Kind, lookalike};
use crate::limits::MOST;
use crate::random::Random;
use crate::values::{Scalar, Sketch, SketchItem};

/// A sketch of a column with so many rows.
pub fn sketch(random: &mut Random, domain: &Domain, kind: Kind, rows: f64) -> Sketch {
    let values = values(random, domain, kind);
    let population = population(random, rows);
    let share = random.pick(&[1, 2, 4, 10]) * values.len().max(1) as u64;
    let items = values
        .into_iter()
        .map(|value| item(random, value, population, share))
        .collect();
    Sketch { population, items }
}

fn values(random: &mut Random, domain: &Domain, kind: Kind) -> Vec<Scalar> {
    let count = random.weighted(&[10, 12, 20, 20, 16, 10, 6, 4, 2]);
    let mut values = Vec::new();
    for _ in 0..count {
        let kind = match random.chance(92) {
            true => kind,
            false => lookalike(random, kind),
        };
        let value = domain.scalar(kind, random.pick(&domain.steps));
        if !values.contains(&value) {
            values.push(value);
        }
    }
    values
}

fn population(random: &mut Random, rows: f64) -> u64 {
    match random.weighted(&[45, 35, 6, 5, 9]) {
        0 => (rows as u64).min(MOST),
        1 => random.between(1, 2_000) as u64,
        2 => 0,
        3 => MOST - random.below(2) as u64,
        _ => 1 << random.below(30),
    }
}

/// An item whose frequency is mostly below its share of the population.
fn item(random: &mut Random, value: Scalar, population: u64, share: u64) -> SketchItem {
    let most = (population / share).max(1) as usize;
    let lower = match random.weighted(&[70, 9, 10, 9, 2]) {
        0 => random.between(1, most) as u64,
        1 => 0,
        2 => random.between(0, population as usize) as u64,
        3 => random.between(0, 500) as u64,
        _ => MOST,
    };
    let error = match random.weighted(&[25, 40, 20, 13, 2]) {
        0 => 0,
        1 => 2 * random.below(20) as u64 + 1,
        2 => random.between(0, most) as u64,
        3 => random.between(0, most / 2) as u64 | 1,
        _ => MOST - random.below(2) as u64,
    };
    SketchItem {
        value,
        lower,
        error: error.min(MOST),
    }
}
