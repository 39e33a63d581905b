//! Runs the proved library and the optimizer's own functions on generated sheets, and their
//! refusals on damaged copies, in one process, and says what was covered and what differs.

mod entries;
mod library;
mod outputs;
mod pieces;
mod report;
mod shapes;

use oracle::answer::Answers;
use report::Report;
use sheet::values::Sheet;
use std::process::ExitCode;
use std::{env, str::FromStr};

const USAGE: &str = "compare [--sheets N] [--damaged N] [--first SEED]";

struct Options {
    sheets: u64,
    damaged: u64,
    first: u64,
}

fn number(word: Option<String>, of: &str) -> Result<u64, String> {
    let word = word.ok_or_else(|| format!("{of} needs a number"))?;
    u64::from_str(&word).map_err(|_| format!("{of}: '{word}' is not a whole number"))
}

fn options(mut words: impl Iterator<Item = String>) -> Result<Options, String> {
    let mut options = Options {
        sheets: 20_000,
        damaged: 20_000,
        first: 0,
    };
    while let Some(word) = words.next() {
        match word.as_str() {
            "--sheets" => options.sheets = number(words.next(), &word)?,
            "--damaged" => options.damaged = number(words.next(), &word)?,
            "--first" => options.first = number(words.next(), &word)?,
            _ => return Err(format!("'{word}' is no option: {USAGE}")),
        }
    }
    Ok(options)
}

fn is_plain(figure: f64) -> bool {
    figure.is_finite() && !(figure == 0.0 && figure.is_sign_negative())
}

/// What the papers say of the source's figures, seen on its answers.
fn observe(answers: &Answers, report: &mut Report) {
    let plain = answers.figures().into_iter().all(is_plain);
    report.held("no figure is -0, infinite or a NaN", plain);
    for predicate in &answers.predicates {
        report.held(
            "a predicate lies in 0..1",
            (0.0..=1.0).contains(&predicate.value),
        );
    }
}

/// The source's answers with both powers, which part in the match figures alone, and the entries.
fn compare_answers(sheet: &Sheet, bytes: &[u8], report: &mut Report) {
    let source = oracle::analysis::answers(sheet);
    let rule = oracle::copies::with_power::answers(sheet);
    let taken = oracle::watch::take_powers();
    if !taken.is_empty() {
        let distance = (source.join.matching.value - rule.join.matching.value).abs();
        report.distance(source.join.residual, distance);
    }
    pieces::compare_powers(&taken, report);
    observe(&rule, report);
    observe(&source, report);
    entries::compare_join(bytes, &rule.join, report);
    entries::compare(bytes, &source, report);
    let mut match_aside = rule;
    match_aside.join.matching = source.join.matching;
    report.held(
        "the power touches only the match figures",
        match_aside == source,
    );
    let watched = oracle::copies::watched::answers(sheet);
    report.reached(&oracle::watch::take_reached());
    report.held("the watched copy answers as the source", watched == source);
}

/// Everything that is compared on an accepted sheet.
fn compare_accepted(sheet: &Sheet, bytes: &[u8], report: &mut Report) {
    compare_answers(sheet, bytes, report);
    pieces::compare(sheet, report);
}

fn compare_sheet(seed: u64, report: &mut Report) {
    let drawn = sheet::generator::sheet(seed);
    let bytes = sheet::writer::write(&drawn);
    report.sheet(seed, &drawn, bytes.len());
    let read = sheet::reader::read(&bytes);
    report.held(
        "the Rust reader reads what was written",
        read.is_ok_and(|read| read.sheet == drawn),
    );
    report.compared("an accepted sheet", library::check(&bytes) == 0);
    compare_accepted(&drawn, &bytes, report);
}

/// A damaged copy gets the reader's number; one that is still accepted is compared as a sheet.
fn compare_damaged(seed: u64, report: &mut Report) {
    let bytes = sheet::damage::damaged(seed, &sheet::generator::sheet(seed));
    match sheet::reader::read(&bytes) {
        Ok(read) => {
            report.damaged(seed, 0);
            report.compared(
                "a damaged copy that is accepted",
                library::check(&bytes) == 0,
            );
            compare_accepted(&read.sheet, &bytes, report);
        }
        Err(refusal) => {
            report.damaged(seed, refusal.number);
            let number = u64::from(refusal.number);
            report.compared("a damaged copy's number", library::check(&bytes) == number);
            entries::compare_refused(&bytes, refusal.number, report);
        }
    }
}

fn main() -> ExitCode {
    let options = match options(env::args().skip(1)) {
        Ok(options) => options,
        Err(why) => {
            eprintln!("{why}");
            return ExitCode::from(2);
        }
    };
    let mut report = Report::default();
    pieces::compare_minus_zero(&mut report);
    pieces::compare_edge_encodings(&mut report);
    for seed in options.first..options.first.saturating_add(options.sheets) {
        compare_sheet(seed, &mut report);
    }
    for seed in options.first..options.first.saturating_add(options.damaged) {
        compare_damaged(seed, &mut report);
    }
    for (file, sum, items) in oracle::SUMS {
        println!("{file}: {items} items cut, SHA-256 {sum}");
    }
    report.print();
    if report.passes() {
        ExitCode::SUCCESS
    } else {
        ExitCode::FAILURE
    }
}
