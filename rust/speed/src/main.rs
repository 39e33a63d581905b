//! Times the proved library beside the source on the same sheets, from bytes to bytes.
//!
//!     speed table               both sides on every sheet
//!     speed growth              both sides on sheets that grow in one thing
//!     speed run SHEET SIDE N    N calls of one side, for a profiler or a counter of instructions

mod growth;
mod sheets;
mod sides;
mod tables;
mod timing;

use sheet::writer::write;
use sides::{Call, Side};
use std::env;
use std::hint::black_box;
use std::process::ExitCode;

const USAGE: &str = "speed table | speed growth | speed run SHEET library|source N";

fn run(name: &str, side: &str, calls: &str) -> Result<(), String> {
    let side = match side {
        "library" => Side::Library,
        "source" => Side::Source,
        _ => return Err(format!("'{side}' is no side: library or source")),
    };
    let named = sheets::all().into_iter().find(|(each, ..)| *each == name);
    let (_, sheet, question) = named.ok_or_else(|| format!("'{name}' is no sheet"))?;
    let calls: u64 = calls
        .parse()
        .map_err(|_| format!("'{calls}' is not a whole number"))?;
    let mut call = Call::new(write(&sheet), question);
    for _ in 0..calls {
        black_box(call.run(side));
    }
    Ok(())
}

fn answer(words: &[&str]) -> Result<(), String> {
    match *words {
        ["table"] => tables::print_sheets(),
        ["growth"] => tables::print_growth(),
        ["run", sheet, side, calls] => return run(sheet, side, calls),
        _ => return Err(USAGE.to_string()),
    }
    Ok(())
}

fn main() -> ExitCode {
    let words: Vec<String> = env::args().skip(1).collect();
    let words: Vec<&str> = words.iter().map(String::as_str).collect();
    match answer(&words) {
        Ok(()) => ExitCode::SUCCESS,
        Err(why) => {
            eprintln!("{why}");
            ExitCode::from(2)
        }
    }
}

#[cfg(test)]
mod tests;
