//! Rows, frequencies, distincts and settings.

use super::style::Style;
use crate::limits::{LARGEST, MOST, SMALLEST};
use crate::random::Random;
use crate::values::Estimate;

pub const CATALOG: u8 = 1;

const DEFAULTS: [f64; 5] = [0.1, 0.25, 0.33, 1000.0, 100.0];

/// The nearest figure that a sheet may hold.
pub fn figure(x: f64) -> f64 {
    if x > 0.0 {
        x.clamp(SMALLEST, LARGEST)
    } else {
        0.0
    }
}

/// A figure at an end of its range, or one that stands out otherwise.
fn special(random: &mut Random) -> f64 {
    random.pick(&[
        0.0,
        SMALLEST,
        LARGEST,
        SMALLEST.next_up(),
        LARGEST.next_down(),
        1.0,
        1.0_f64.next_down(),
        1.0_f64.next_up(),
        1e-9,
        MOST as f64,
        MOST as f64 + 2.0,
        1e18,
    ])
}

fn mostly(random: &mut Random, style: &Style, value: f64) -> f64 {
    match random.chance(style.special) {
        true => special(random),
        false => figure(value),
    }
}

/// A share of something, more than none of it and less than the whole.
fn share(random: &mut Random) -> f64 {
    match random.chance(50) {
        true => random.pick(&[0.5, 0.75, 0.25, 0.9, 0.1, 0.625]),
        false => 0.02 + 0.96 * random.unit(),
    }
}

/// Drops what stands behind the point, unless nothing else would be left.
fn mostly_whole(random: &mut Random, value: f64) -> f64 {
    match value >= 1.0 && random.chance(70) {
        true => value.floor(),
        false => value,
    }
}

/// A value with its bounds and source.
pub fn estimate(random: &mut Random, value: f64) -> Estimate {
    let (lower, upper) = match random.weighted(&[25, 15, 25, 15, 10, 10]) {
        0 => (None, None),
        1 => (Some(value), Some(value)),
        2 => (Some(loose(random, value)), Some(loose(random, value))),
        3 => (Some(0.0), None),
        4 => (Some(loose(random, value)), None),
        _ => (None, Some(loose(random, value))),
    };
    Estimate {
        source: random.below(5) as u8,
        value,
        lower,
        upper,
    }
}

/// A bound somewhere near a value, or at an end of the range.
fn loose(random: &mut Random, value: f64) -> f64 {
    if random.chance(12) {
        return special(random);
    }
    let factor = random.pick(&[0.5, 0.9, 1.0, 1.1, 2.0, 10.0]);
    figure(value * factor)
}

/// The rows of both sides, each with its bounds.
pub fn both_rows(random: &mut Random, style: &Style) -> [Estimate; 2] {
    let few = random.chance(3);
    [0, 1].map(|_| match few {
        true => {
            let value = random.pick(&[SMALLEST, 0.001, 0.5, 0.75, 0.9]);
            estimate(random, value)
        }
        false => rows_estimate(random, style),
    })
}

fn rows_estimate(random: &mut Random, style: &Style) -> Estimate {
    let value = rows(random, style);
    let mut estimate = estimate(random, value);
    if style.catalogued && random.chance(92) {
        estimate.source = CATALOG;
    }
    estimate
}

fn rows(random: &mut Random, style: &Style) -> f64 {
    let value = match random.weighted(&[76, 3, 4, 5, 12]) {
        0 => usual_rows(random),
        1 => 0.0,
        2 => random.pick(&[SMALLEST, 0.001, 0.5, 0.75, 1.0]),
        3 => random.pick(&[MOST as f64, 1e15, 1e12, LARGEST, LARGEST / 2.0]),
        _ => usual_rows(random) * (0.5 + random.unit()),
    };
    // The catalog counts whole rows.
    match style.catalogued && value < MOST as f64 {
        true => value.ceil(),
        false => figure(value),
    }
}

fn usual_rows(random: &mut Random) -> f64 {
    match random.weighted(&[12, 45, 18, 25]) {
        0 => random.between(1, 20) as f64,
        1 => random.between(20, 1_000) as f64,
        2 => (1_u64 << random.between(0, 20)) as f64,
        _ => random.between(1_000, 1_000_000) as f64,
    }
}

/// How many rows have a value in a column.
pub fn frequency(random: &mut Random, style: &Style, rows: f64) -> f64 {
    let value = if !random.chance(style.nullable) {
        rows
    } else {
        match random.weighted(&[78, 10, 2, 10]) {
            0 => rows * share(random),
            1 => rows * (1.0 + random.unit()),
            2 => 0.0,
            _ => random.between(1, 1_000) as f64,
        }
    };
    let value = mostly_whole(random, value);
    mostly(random, style, value)
}

/// How many different values a column has.
pub fn distinct(random: &mut Random, style: &Style, frequency: f64) -> f64 {
    if !style.tied.is_empty() && random.chance(92) {
        return random.pick(&style.tied);
    }
    let value = match random.weighted(&[27, 35, 6, 7, 9, 5, 1, 10]) {
        0 => mostly_whole_share(random, frequency),
        1 => random.between(1, 14) as f64,
        2 => frequency,
        3 => frequency * (1.0 + 3.0 * random.unit()),
        4 => random.between(1, 60) as f64 / random.pick(&[3.0, 4.0, 8.0, 7.0]),
        5 => random.pick(&[0.5, 0.1, 0.75, 1.0_f64.next_down(), 1e-6]),
        6 => 0.0,
        _ => (1_u64 << random.below(7)) as f64,
    };
    mostly(random, style, value)
}

fn mostly_whole_share(random: &mut Random, frequency: f64) -> f64 {
    let part = frequency * share(random) * random.pick(&[1.0, 0.25, 0.05]);
    mostly_whole(random, part)
}

/// The distinct of a class, now larger and now smaller than those of its columns.
pub fn class_distinct(random: &mut Random, style: &Style, near: f64) -> f64 {
    if !style.tied.is_empty() && random.chance(88) {
        return random.pick(&style.tied);
    }
    let value = match random.weighted(&[25, 25, 15, 35]) {
        0 => near * share(random),
        1 => near * (1.0 + 4.0 * random.unit()),
        2 => near,
        _ => random.between(1, 60) as f64,
    };
    let value = mostly_whole(random, value);
    mostly(random, style, value)
}

pub fn settings(random: &mut Random, style: &Style) -> [f64; 5] {
    let mut settings = DEFAULTS;
    if random.chance(60) {
        for place in 0..3 {
            settings[place] = selectivity(random, DEFAULTS[place]);
        }
        settings[3] = assumption(random, DEFAULTS[3]);
    }
    if random.chance(60) {
        settings[4] = assumption(random, DEFAULTS[4]);
    }
    if !style.tied.is_empty() && random.chance(40) {
        settings[4] = style.tied[0];
    }
    settings
}

fn selectivity(random: &mut Random, default: f64) -> f64 {
    match random.weighted(&[30, 34, 12, 16, 3, 2, 3]) {
        0 => default,
        1 => figure(random.unit()),
        2 => 1.0 - share(random) * 0.1,
        3 => 1.0 / (1_u64 << random.between(1, 14)) as f64,
        4 => 0.0,
        5 => SMALLEST,
        _ => 1.0,
    }
}

fn assumption(random: &mut Random, default: f64) -> f64 {
    match random.weighted(&[30, 30, 20, 8, 12]) {
        0 => default,
        1 => random.between(1, 200) as f64,
        2 => figure(200.0 * random.unit()),
        3 => 0.0,
        _ => special(random),
    }
}
