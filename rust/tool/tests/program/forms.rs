//! Text and bytes, each made from the other.

use crate::run::{sample, sheet};
use sheet::generator;
use sheet::samples::{full, largest};
use sheet::values::Sheet;
use sheet::{text, writer};

fn goes_round(of: &Sheet, name: &str) {
    let words = text::print(of);
    let bytes = sheet(&["bytes"], words.as_bytes()).answer();
    assert_eq!(bytes, writer::write(of), "{name}");
    assert_eq!(sheet(&["text"], &bytes).words(), words, "{name}");
}

#[test]
fn text_to_bytes_to_text() {
    for seed in 0..300 {
        goes_round(&generator::sheet(seed), &format!("seed {seed}"));
    }
    goes_round(&full(), "full");
    goes_round(&largest(), "largest");
}

#[test]
fn a_file_is_read_as_standard_input_is() {
    let path = sample("option-block.sheet");
    let bytes = sheet(&["bytes", path.to_str().unwrap()], b"").answer();
    let words = std::fs::read(&path).unwrap();
    assert_eq!(sheet(&["bytes"], &words).answer(), bytes);
    let file = std::env::temp_dir().join(format!("sheet-{}.bytes", std::process::id()));
    std::fs::write(&file, &bytes).unwrap();
    let run = sheet(&["text", file.to_str().unwrap()], b"");
    std::fs::remove_file(&file).unwrap();
    assert_eq!(run, sheet(&["text"], &bytes));
    assert_eq!(writer::write(&text::parse(&run.words()).unwrap()), bytes);
}
