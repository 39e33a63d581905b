//! docs/FORMAT.md: the worked sheet, its answers and its refusals are the library's, byte for byte.

use estimates::{
    Join, LONGEST_JOIN, LONGEST_PREDICATE, LONGEST_SPLIT, Refusal, join_bytes, predicate_bytes,
    split_bytes,
};
use sheet::text::parse;
use sheet::writer::write;
use std::mem;
use std::ops::Range;

const PAGE: &str = include_str!("../../../docs/FORMAT.md");

/// How a line that is set apart begins, and where a dump's line has its offset and its bytes.
const APART: &str = "    ";
const OFFSET: Range<usize> = 4..7;
const BYTES: Range<usize> = 9..56;

/// The first line in which `find` finds something: what it is, and the lines that are set apart
/// next.
fn example<T>(name: &str, find: impl Fn(&str) -> Option<T>) -> (T, Vec<&'static str>) {
    let mut lines = PAGE.lines();
    let found = lines.find_map(find);
    let apart: Vec<_> = lines
        .skip_while(|line| !line.starts_with(APART))
        .take_while(|line| line.starts_with(APART))
        .collect();
    match found {
        Some(found) if !apart.is_empty() => (found, apart),
        _ => panic!("docs/FORMAT.md has no example behind '{name}'"),
    }
}

/// Adds the bytes of a dump's line. Its offset, where it has one, is the number of those before.
fn add_line(bytes: &mut Vec<u8>, line: &str) {
    let offset = line.get(OFFSET).unwrap_or("").trim();
    if !offset.is_empty() {
        assert_eq!(offset.parse(), Ok(bytes.len()), "the offset of '{line}'");
    }
    let hex = line.get(BYTES).or(line.get(BYTES.start..)).unwrap_or("");
    for byte in hex.split_whitespace() {
        let byte = u8::from_str_radix(byte, 16);
        bytes.push(byte.unwrap_or_else(|_| panic!("no bytes in '{line}'")));
    }
}

/// The bytes of the dump behind a line that says between these words how many they are.
fn dump(before: &str, behind: &str) -> Vec<u8> {
    let (length, lines) = example(before, |line| {
        let (length, _) = line.strip_prefix(before)?.split_once(behind)?;
        length.parse::<usize>().ok()
    });
    let mut bytes = Vec::new();
    for line in lines {
        add_line(&mut bytes, line);
    }
    assert_eq!(bytes.len(), length, "the length behind '{before}'");
    bytes
}

fn worked_sheet() -> Vec<u8> {
    dump("Its ", " bytes in hex")
}

/// The page has these words, wherever its lines break.
#[track_caller]
fn says(words: &str) {
    let page = PAGE.lines().collect::<Vec<_>>().join(" ");
    assert!(page.contains(words), "docs/FORMAT.md has no '{words}'");
}

/// The page's bytes are those due, or it is told which of them is the first to differ.
#[track_caller]
fn same(name: &str, page: &[u8], due: &[u8]) {
    for (at, (page, due)) in page.iter().zip(due).enumerate() {
        assert!(
            page == due,
            "{name}byte {at} is {page:02X} on the page, not {due:02X}"
        );
    }
    assert_eq!(page.len(), due.len(), "{name}length");
}

/// A call on the worked sheet writes the bytes that are dumped behind these words.
fn writes(before: &str, size: usize, call: impl Fn(&[u8], &mut [u8]) -> Result<usize, Refusal>) {
    let mut out = vec![0; size];
    let length = call(&worked_sheet(), &mut out).unwrap();
    let page = dump(before, " bytes:");
    same(before, &page, &out[..length]);
}

#[test]
fn the_worked_sheet_as_text() {
    let (_, lines) = example("As text:", |line| line.ends_with("As text:").then_some(()));
    let text: Vec<_> = lines.iter().map(|line| line.trim()).collect();
    let sheet = parse(&text.join("\n")).unwrap_or_else(|error| panic!("{error}"));
    same("The sheet, ", &worked_sheet(), &write(&sheet));
}

#[test]
fn the_worked_answers() {
    writes("The join's answer, ", LONGEST_JOIN, join_bytes);
    let predicate = |sheet: &[u8], out: &mut [u8]| predicate_bytes(sheet, 5, out);
    writes(
        "The predicate of expression 5, ",
        LONGEST_PREDICATE,
        predicate,
    );
    let split = |sheet: &[u8], out: &mut [u8]| split_bytes(sheet, 5, out);
    writes("The split of expression 5, ", LONGEST_SPLIT, split);
}

#[test]
fn the_worked_refusals() {
    let mut sheet = worked_sheet();
    let out = &mut [0; LONGEST_JOIN];
    let absent = predicate_bytes(&sheet, 6, out).unwrap_err();
    assert_eq!(split_bytes(&sheet, 6, out), Err(absent));
    let absent = absent.number();
    says(&format!(
        "expression 6, predicate and split return 0x1_0000_{absent:04X}, refusal {absent};"
    ));
    let short = predicate_bytes(&sheet, 5, &mut out[..25])
        .unwrap_err()
        .number();
    says(&format!(
        "an output of 25 bytes returns 0x1_0000_{short:04X}, refusal {short}."
    ));
    let before = mem::replace(&mut sheet[104], 128);
    let column = join_bytes(&sheet, out).unwrap_err().number();
    says(&format!(
        "With 80 in place of {before:02X} at byte 104 the sheet has a column 128: refusal {column}."
    ));
}

#[test]
fn the_sizes_of_answers() {
    let mut join = Join::read(&dump("The join's answer, ", " bytes:")).unwrap();
    let whole = join.bytes().len();
    join.coverages.clear();
    says(&format!("| coverage | {} |", whole - join.bytes().len()));
    join.classes.clear();
    join.non_null.clear();
    let shortest = join.bytes().len();
    says(&format!("| figures of a join | {} |", shortest - 4 * 2));
    let longest = [LONGEST_JOIN, LONGEST_SPLIT].map(|n| format!("{},{:03}", n / 1000, n % 1000));
    let [join, split] = longest;
    says(&format!("### Join, {shortest}..{join} bytes"));
    says(&format!("### Predicate, {LONGEST_PREDICATE} bytes"));
    says(&format!("### Split, 2..{split} bytes"));
    says(&format!(
        "An output of {join}, {LONGEST_PREDICATE} and {split} bytes is never too short"
    ));
}
