//! What is printed: times in microseconds, the middle one of the rounds.

use crate::sides::{self, Call, Side};
use crate::timing::{Time, both, one};
use crate::{growth, sheets};
use sheet::writer::write;

const ROUNDS: usize = 15;

/// Both sides, in turn.
fn timed(call: &Call) -> [Time; 2] {
    let mut library = Call::new(call.sheet.clone(), call.question);
    let mut source = Call::new(call.sheet.clone(), call.question);
    both(
        ROUNDS,
        || library.run(Side::Library),
        || source.run(Side::Source),
    )
}

/// Both times, and how many times faster the library is: by the middle rounds and the fastest.
fn compared(call: &Call) -> String {
    let [library, source] = timed(call);
    format!(
        "{:.2} us | {:.2} us | {:.1} | {:.1}",
        library.middle / 1e3,
        source.middle / 1e3,
        source.middle / library.middle,
        source.fastest / library.fastest,
    )
}

/// Every sheet; the last column has the source's own part.
pub fn print_sheets() {
    println!("| sheet | bytes | answer | library | source | times | fastest | source alone |");
    println!("|---|---|---|---|---|---|---|---|");
    for (name, sheet, question) in sheets::all() {
        let mut call = Call::new(write(&sheet), question);
        let (bytes, answer) = (call.sheet.len(), call.run(Side::Library));
        let loaded = oracle::analysis::load(&sheet);
        let alone = one(ROUNDS, || sides::source_alone(&loaded, question)).middle / 1e3;
        let both = compared(&call);
        println!("| {name} | {bytes} | {answer} | {both} | {alone:.2} us |");
    }
}

/// Every series of sheets.
pub fn print_growth() {
    for series in growth::all() {
        println!(
            "| {} | bytes | library | source | times | fastest |",
            series.what
        );
        println!("|---|---|---|---|---|---|");
        for (count, sheet, question) in series.sheets {
            let call = Call::new(write(&sheet), question);
            let (bytes, both) = (call.sheet.len(), compared(&call));
            println!("| {count} | {bytes} | {both} |");
        }
        println!();
    }
}
