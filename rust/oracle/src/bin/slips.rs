//! After how many generated sheets does each slip show, and on how many?
//!
//! Each slip is put into a copy of the cut functions; the copy and the original then answer the
//! sheets of the seeds from 0 on.

use oracle::answer::Answers;
use oracle::copies::SLIPS;
use sheet::generator;
use sheet::values::Sheet;
use std::process::ExitCode;

/// A slip that shows on none of so many sheets counts as not found.
const SHEETS: u64 = 10_000;

fn shows(answers: fn(&Sheet) -> Answers, seed: u64) -> bool {
    let sheet = generator::sheet(seed);
    answers(&sheet) != oracle::analysis::answers(&sheet)
}

fn main() -> ExitCode {
    println!("of {SHEETS} sheets the slip shows on so many, the first of which is the n-th:");
    let mut all_found = true;
    for (about, answers) in SLIPS {
        let shown: Vec<u64> = (0..SHEETS).filter(|seed| shows(answers, *seed)).collect();
        let first = shown
            .first()
            .map_or("never".to_string(), |seed| (seed + 1).to_string());
        println!("{:>8} {first:>8}  {about}", shown.len());
        all_found &= !shown.is_empty();
    }
    if all_found {
        ExitCode::SUCCESS
    } else {
        ExitCode::FAILURE
    }
}
