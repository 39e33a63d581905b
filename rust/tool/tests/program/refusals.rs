//! What is said of texts and sheets that are refused: status 1, and nothing on standard output.

use crate::run::{sample, sheet};
use sheet::samples::{empty, full, largest};
use sheet::values::{Expression, Scalar, Section, Sheet};
use sheet::{text, worked, writer};

/// Every command that takes a sheet says the same of it.
const ALL: [&[&str]; 3] = [&["join"], &["predicate", "0"], &["split", "0"]];

/// The last two lines of a refusal, behind a first one that begins as it should.
fn place(said: &str, begins: &str) -> String {
    let (first, rest) = said.split_once('\n').unwrap();
    assert!(first.starts_with(begins), "{first}");
    assert!(first.len() > begins.len() + 20, "{first}");
    rest.to_string()
}

fn bytes_refused(bytes: &[u8], number: u8, due: &str) {
    let said = sheet(&["text"], bytes).failure(1);
    let begins = format!("standard input: refusal {number} (");
    assert_eq!(place(&said, &begins), due);
    for command in ALL {
        assert_eq!(sheet(command, bytes).failure(1), said);
    }
}

/// The bytes of a sheet with one field overwritten.
fn spoilt(of: &Sheet, section: Section, record: Option<usize>, name: &str, byte: u8) -> Vec<u8> {
    let mut fields = writer::fields(of).into_iter();
    let field = fields
        .find(|field| (field.section, field.record, field.name) == (section, record, name))
        .unwrap();
    let mut bytes = writer::write(of);
    bytes[field.at] = byte;
    bytes
}

#[test]
fn a_record() {
    let bytes = spoilt(&full(), Section::Keys, Some(1), "referenced name", 7);
    let at = writer::fields(&full())
        .iter()
        .find(|field| field.section == Section::Keys && field.record == Some(1))
        .unwrap()
        .at;
    let due = format!(
        "  at: section keys, record 1, field referenced name, byte {} of the sheet\n  expected: \
         hex FFFF, since a unique key has none\n",
        at + 7
    );
    bytes_refused(&bytes, 6, &due);
}

#[test]
fn an_item() {
    let mut of = empty();
    of.sketches = vec![full().sketches[2].clone()];
    let item = of.sketches[0].items[0];
    of.sketches[0].items.push(item);
    // The rows take 54 bytes, the settings 42, the head with the count 12, an item 35.
    let due = "  at: section sketches, record 0, item 1, field scalar, byte 143 of the sheet\n  \
               expected: a value that no item before it has\n";
    bytes_refused(&writer::write(&of), 7, due);
}

#[test]
fn a_count() {
    let bytes = spoilt(&empty(), Section::Tables, None, "count", 65);
    let due = "  at: section tables, field count, byte 98 of the sheet\n  expected: at most 64 \
               records\n";
    bytes_refused(&bytes, 3, due);
}

#[test]
fn the_end() {
    let bytes = writer::write(&empty());
    let due = "  at: section conjuncts, field count, byte 114 of the sheet\n  expected: the whole \
               count, before the sheet ends\n";
    bytes_refused(&bytes[..115], 2, due);
    let due = "  at: field end, byte 116 of the sheet\n  expected: the sheet's end\n";
    bytes_refused(&[&bytes[..], &[0]].concat(), 10, due);
    let due = "  at: field length, byte 65536 of the sheet\n  expected: at most 65535 bytes\n";
    bytes_refused(&vec![0; 65_536], 1, due);
}

/// A text whose sheet breaks a rule is refused by every command, with the line.
fn text_refused(words: &str, line: Option<usize>, number: u8, due: &str) {
    let said = sheet(&["bytes"], words.as_bytes()).failure(1);
    let line = line.map_or(String::new(), |line| format!(":{line}"));
    let begins = format!("standard input{line}: refusal {number} (");
    assert_eq!(place(&said, &begins), due);
    for command in ALL {
        assert_eq!(sheet(command, words.as_bytes()).failure(1), said);
    }
}

const ROWS: &str = "[rows]\nleft exact 1\nright exact 1\n";

#[test]
fn a_record_of_a_text() {
    let words = format!("{ROWS}[tables]\ntable 2 rows 5\n\ntable 1 rows 5\n");
    let due = "  at: section tables, record 1, field table, byte 110 of the sheet\n  expected: a \
               table above the one before it\n";
    text_refused(&words, Some(7), 7, due);
    let words = "[rows]\nleft exact 1\nright exact 1e-30";
    let due = "  at: section rows, record 1, field value, byte 30 of the sheet\n  expected: 0, or \
               a number from 2^-64 to 2^64\n";
    text_refused(words, Some(3), 4, due);
}

#[test]
fn an_item_of_a_text() {
    let items = "item int32 1 lower 1 error 0\n# again\nitem int32 1 lower 1 error 0";
    let words = format!("{ROWS}[sketches]\n0: population 9\n{items}");
    let due = "  at: section sketches, record 0, item 1, field scalar, byte 143 of the sheet\n  \
               expected: a value that no item before it has\n";
    text_refused(&words, Some(8), 7, due);
    let words = format!("{ROWS}[left classes]\n# one\ndistinct exact 1 columns 2 1");
    let due = "  at: section left classes, record 0, item 1, field column, byte 138 of the sheet\n  \
               expected: a column below 128, in a list above the one before it\n";
    text_refused(&words, Some(6), 7, due);
}

#[test]
fn a_count_of_a_text() {
    let words = text::print(&worked::too_many_conjuncts());
    let line = 1 + words
        .lines()
        .position(|line| line == "[conjuncts]")
        .unwrap();
    let said = sheet(&["bytes"], words.as_bytes()).failure(1);
    let begins = format!("standard input:{line}: refusal 3 (");
    let rest = place(&said, &begins);
    assert!(rest.starts_with("  at: section conjuncts, field count, byte "));
    assert!(rest.ends_with("\n  expected: at most 64 records\n"));
}

#[test]
fn an_operand_is_told_by_its_expression() {
    let words = format!("{ROWS}[expressions]\n0: and\n1: or 0\n2: or 0");
    let due = "  at: section operands, record 1, field expression, byte 191 of the sheet\n  \
               expected: an And or Or that is no operand yet\n";
    text_refused(&words, Some(7), 9, due);
    let words = format!("{ROWS}[expressions]\n0: other\n1: and{}", " 0".repeat(513));
    let due = "  at: section operands, field count, byte 162 of the sheet\n  expected: at most \
               512 records\n";
    text_refused(&words, Some(4), 3, due);
}

#[test]
fn a_text_that_is_too_long_has_no_line() {
    let words = format!("{ROWS}[conjuncts]\n{}", "0\n".repeat(65_536));
    let due = "  at: field length, byte 131188 of the sheet\n  expected: at most 65535 bytes\n";
    text_refused(&words, None, 1, due);
}

#[test]
fn a_bad_line() {
    let words = format!("{ROWS}[left columns]\ncolumn x\n");
    let due = "standard input:5: expected a column number below 128, found 'x'\n";
    assert_eq!(sheet(&["bytes"], words.as_bytes()).failure(1), due);
    for command in ALL {
        assert_eq!(sheet(command, words.as_bytes()).failure(1), due);
    }
    let due = "standard input:1: expected '[rows]', found the end of the text\n";
    assert_eq!(sheet(&["join"], b"").failure(1), due);
}

#[test]
fn a_bad_line_of_a_file_has_the_files_name() {
    let path = sample("option-block.join.txt");
    let name = path.to_str().unwrap();
    let said = sheet(&["bytes", name], b"").failure(1);
    let begins = format!("{name}:1: expected '[rows]', found 'selectivity ");
    assert!(said.starts_with(&begins), "{said}");
}

#[test]
fn what_is_no_text() {
    let expected = "expected text in UTF-8 without zero bytes, found the byte";
    let bytes = writer::write(&empty());
    let said = sheet(&["bytes"], &bytes).failure(1);
    assert_eq!(said, format!("standard input:1: {expected} 00\n"));
    let latin = b"[rows]\nleft exact 1 # Fran\xE7ais\n";
    for command in [&["bytes"][..], &["join"]] {
        let said = sheet(command, latin).failure(1);
        assert_eq!(said, format!("standard input:2: {expected} E7\n"));
    }
}

#[test]
fn an_expression_that_the_sheet_has_not() {
    for command in ["predicate", "split"] {
        let said = sheet(&[command, "4"], &writer::write(&worked::an_equality())).failure(1);
        let rest = place(&said, "standard input: refusal 11 (");
        assert_eq!(
            rest,
            "  at: the argument 4\n  expected: an expression from 0 to 3\n"
        );
        let said = sheet(&[command, "65535"], &writer::write(&empty())).failure(1);
        assert!(said.ends_with("\n  expected: a sheet with expressions; this one has none\n"));
        let of = largest();
        assert_eq!(of.expressions.len(), 256);
        let said = sheet(&[command, "256"], &writer::write(&of)).failure(1);
        assert!(said.ends_with("\n  expected: an expression from 0 to 255\n"));
    }
}

#[test]
fn a_scalar_that_no_sheet_may_have() {
    let of = Sheet {
        expressions: vec![Expression::Literal(Scalar::Decimal128 {
            precision: 39,
            scale: 0,
            value: 1,
        })],
        ..empty()
    };
    let said = sheet(&["bytes"], text::print(&of).as_bytes()).failure(1);
    let rest = place(&said, "standard input:13: refusal 5 (");
    let due = "  at: section expressions, record 0, field scalar, byte 118 of the sheet\n  \
               expected: a scalar (a float 0 or of size 2^-400 to 2^400, a decimal of precision 1 \
               to 38 and scale 0 to 22)\n";
    assert_eq!(rest, due);
}
