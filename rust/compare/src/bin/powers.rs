//! Looks for the sheets on which a match figure lies farthest from the source's. Only the power parts them: document
//! 01's rule in the library, `powf` in the source.
//!
//!     powers [CLIMBS [SEED]]
//!
//! A sheet has one equality that every row meets, so that the match figure is 1 - (1 - residual)^(right rows). On other
//! sheets the distance is that of some such one, or a part of it. Each climb starts anywhere and goes on as long as
//! small changes of the two numbers help. The farthest sheets are then asked of the library and of the source.

use oracle::power::power;
use sheet::random::Random;
use sheet::samples::from_catalog;
use sheet::values::{Expression, Sheet};
use sheet::worked::{EQ, column, equality, with_conjuncts};
use sheet::writer::write;
use std::env;
use std::process::ExitCode;

/// So many changes in a row that do not help end a climb.
const PATIENCE: usize = 400;

/// The residual from which document 01 sets a limit to the distance.
const LIMIT_FROM: f64 = 1.0 / (1 << 16) as f64;

/// A residual and how many right rows there are.
type Input = [f64; 2];

/// Residuals with a limit, and smaller ones; 2^-54 and what lies below leaves 1 as it is.
const RANGES: [(&str, f64, f64); 2] = [
    ("residual 2^-16 or more", LIMIT_FROM, 1.0),
    ("smaller residual", 1.0 / (1u64 << 54) as f64, LIMIT_FROM),
];

/// The largest number of rows that a sheet may have.
const MOST_ROWS: f64 = 18_446_744_073_709_551_616.0;

fn distance([residual, rows]: Input) -> f64 {
    let x = 1.0 - residual;
    ((1.0 - power(x, rows)) - (1.0 - x.powf(rows))).abs()
}

/// A number between two, its logarithm drawn evenly.
fn drawn(low: f64, high: f64, random: &mut Random) -> f64 {
    let number = low * (high / low).powf(random.unit());
    number.clamp(low, high.next_down())
}

/// A residual, and rows of which some, but not all, find a partner.
fn start(low: f64, high: f64, random: &mut Random) -> Input {
    let residual = drawn(low, high, random);
    let pairs = drawn(1.0 / 16.0, 16.0, random);
    [residual, (pairs / residual).clamp(1.0, MOST_ROWS)]
}

/// A number so many units of its last place away, by a power of two.
fn moved(number: f64, random: &mut Random) -> f64 {
    let bits = number.to_bits();
    let step = 1 << random.below(52);
    f64::from_bits(match random.chance(50) {
        true => bits + step,
        false => bits - step,
    })
}

fn neighbour([residual, rows]: Input, low: f64, high: f64, random: &mut Random) -> Input {
    let which = random.below(3);
    let residual = match which {
        0 => residual,
        _ => moved(residual, random).clamp(low, high.next_down()),
    };
    let rows = match which {
        1 => rows,
        _ => moved(rows, random).clamp(1.0, MOST_ROWS),
    };
    [residual, rows]
}

fn climb(low: f64, high: f64, random: &mut Random) -> (f64, Input) {
    let mut best = start(low, high, random);
    let mut reached = distance(best);
    let mut failures = 0;
    while failures < PATIENCE {
        let next = neighbour(best, low, high, random);
        let there = distance(next);
        failures += 1;
        if there > reached {
            failures = 0;
        }
        if there >= reached {
            (best, reached) = (next, there);
        }
    }
    (reached, best)
}

/// The sheet of an input: columns 1 and 2 have one value and no null, and the default of a predicate is the residual.
fn sheet_of([residual, rows]: Input) -> Sheet {
    let conjuncts = [equality(EQ, 1, 2), Expression::Other];
    let mut sheet = with_conjuncts(column(1, 100.0, 1.0), column(2, rows, 1.0), &conjuncts);
    sheet.rows[1] = from_catalog(rows);
    sheet.settings[1] = residual;
    sheet
}

/// How far the library's match figure lies from the source's.
fn asked(input: Input) -> f64 {
    let sheet = sheet_of(input);
    let library = estimates::join(&write(&sheet)).expect("the sheet keeps every rule");
    let source = oracle::analysis::answers(&sheet).join;
    (library.matching.value - source.matching.value).abs()
}

fn number(word: Option<String>, otherwise: u64) -> Result<u64, String> {
    let Some(word) = word else {
        return Ok(otherwise);
    };
    let number = word.parse();
    number.map_err(|_| format!("powers: '{word}' is not a whole number: powers [CLIMBS [SEED]]"))
}

fn main() -> ExitCode {
    let mut words = env::args().skip(1);
    let (climbs, seed) = match (number(words.next(), 100_000), number(words.next(), 0)) {
        (Ok(climbs), Ok(seed)) => (climbs, seed),
        (Err(why), _) | (_, Err(why)) => {
            eprintln!("{why}");
            return ExitCode::from(2);
        }
    };
    for (name, low, high) in RANGES {
        let mut random = Random::new(seed);
        let climbed = (0..climbs).map(|_| climb(low, high, &mut random));
        let best = climbed.max_by(|one, other| one.0.total_cmp(&other.0));
        let Some((_, input)) = best else { continue };
        let distance = asked(input);
        let [residual, rows] = input;
        println!(
            "{name}: {distance:e} (2^{:.2}), residual {residual:e}, right rows {rows:?}",
            distance.log2()
        );
    }
    ExitCode::SUCCESS
}

#[cfg(test)]
mod tests {
    use super::asked;

    /// What docs/RUST-RUNS.md records. `powf` may differ in its last bit from machine to machine.
    #[test]
    fn the_recorded_distances() {
        let recorded = [
            (
                [6.320414405522011e-1, 1.0000001760199664],
                3.426146033547184e-10,
            ),
            (
                [8.583713668448298e-10, 1059683034.0302247],
                4.031153522099373e-9,
            ),
        ];
        for (input, distance) in recorded {
            assert!((asked(input) - distance).abs() < 1e-15);
        }
    }
}
