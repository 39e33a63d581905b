use super::*;
use sheet::damage::damaged;
use sheet::generator::sheet;
use sheet::reader::read;
use std::collections::BTreeSet;

#[test]
fn every_refusal_of_a_damaged_sheet_has_its_own_words() {
    let mut met = BTreeSet::new();
    for seed in 0..20_000 {
        if let Err(refusal) = read(&damaged(seed, &sheet(seed))) {
            let words = expected(&refusal);
            assert_ne!(words, UNKNOWN, "{refusal:?}");
            met.insert((refusal.number, words));
        }
    }
    assert!(met.len() > 40, "{met:#?}");
}

fn refusal(
    number: u8,
    section: Option<Section>,
    record: Option<usize>,
    field: &'static str,
) -> Refusal {
    Refusal {
        number,
        at: 0,
        section,
        record,
        item: None,
        field,
    }
}

#[test]
fn what_is_expected_goes_by_section_record_and_field() {
    use Section::*;
    let cases = [
        (3, Rows, 0, "count", "2 records"),
        (3, Conjuncts, 0, "count", "at most 64 records"),
        (
            3,
            Sketches,
            0,
            "n",
            "at most 64 items, and at most 512 in all",
        ),
        (3, LeftClasses, 0, "n", "2 to 128 columns"),
        (4, Settings, 2, "setting", "0, or a number from 2^-64 to 1"),
        (
            4,
            Settings,
            3,
            "setting",
            "0, or a number from 2^-64 to 2^64",
        ),
        (4, Sketches, 0, "lower", "at most 2^53"),
        (
            4,
            Tables,
            0,
            "rows",
            "at most 2^53, or all ones for unknown",
        ),
        (
            4,
            LeftColumns,
            0,
            "frequency lower",
            "0, or a number from 2^-64 to 2^64",
        ),
        (6, Keys, 0, "kind", "1 (unique) or 2 (foreign)"),
        (6, Expressions, 0, "kind", "a kind from 0 to 6"),
        (6, LeftColumns, 0, "distinct source", "a source from 0 to 4"),
        (6, Rows, 0, "flags", "flags from 0 to 3"),
        (7, Tables, 1, "table", "a table above the one before it"),
        (
            7,
            Sketches,
            0,
            "scalar",
            "a value that no item before it has",
        ),
        (7, Expressions, 0, "a", "a column below 128"),
        (
            8,
            RightColumns,
            0,
            "sketch",
            "a sketch of this sheet, or hex FFFF for none",
        ),
        (8, Expressions, 3, "b", "an expression before this one"),
        (8, Conjuncts, 0, "expression", "an expression of this sheet"),
        (9, Operands, 0, "count", "as many operands as all runs have"),
        (
            9,
            Operands,
            0,
            "expression",
            "an And or Or that is no operand yet",
        ),
        (9, Expressions, 2, "a", "the operand behind the run before"),
    ];
    for (number, section, record, field, due) in cases {
        let refusal = refusal(number, Some(section), Some(record), field);
        assert_eq!(expected(&refusal), due);
    }
    let ends = expected(&refusal(2, Some(Keys), Some(4), "record"));
    assert_eq!(ends, "the whole record, before the sheet ends");
    assert_eq!(
        expected(&refusal(1, None, None, "length")),
        "at most 65535 bytes"
    );
    assert_eq!(expected(&refusal(10, None, None, "end")), "the sheet's end");
}
