//! Each mistake of a text is told by its line, what stands there and what should.

use sheet::text::parse;

const ROWS: &str = "[rows]\nleft exact 1\nright exact 1\n";

/// What is said of a text behind its rows, of which the first line is line 4.
fn said(rest: &str) -> String {
    match parse(&format!("{ROWS}{rest}")) {
        Ok(_) => "nothing".into(),
        Err(error) => error.to_string(),
    }
}

fn all_said(cases: &[(&str, &str)]) {
    for (rest, due) in cases {
        assert_eq!(said(rest), *due, "{rest}");
    }
}

#[test]
fn a_text_begins_with_its_rows() {
    let cases = [
        ("", "line 1: expected '[rows]', found the end of the text"),
        (
            "# none\n\n",
            "line 3: expected '[rows]', found the end of the text",
        ),
        (
            "left exact 1",
            "line 1: expected '[rows]', found 'left exact 1'",
        ),
        ("\n[tables]", "line 2: expected '[rows]', found '[tables]'"),
        ("[rows] x", "line 1: expected '[rows]', found '[rows] x'"),
        (
            "[rows]",
            "line 2: expected 'left', found the end of the text",
        ),
        (
            "[rows]\nright exact 1",
            "line 2: expected 'left', found 'right'",
        ),
        (
            "[rows]\nleft exact 1\n[tables]",
            "line 3: expected 'right', found '[tables]'",
        ),
    ];
    for (text, due) in cases {
        assert_eq!(parse(text).unwrap_err().to_string(), due, "{text}");
    }
}

#[test]
fn sections_stand_once_and_in_their_order() {
    let behind = "'[left classes]', '[right classes]', '[expressions]', '[conjuncts]' \
                  or the end of the text";
    let late = |found: &str| format!("line 6: expected {behind}, found '{found}'");
    let twice = "[right columns]\n\n[right columns]";
    assert_eq!(said(twice), late("[right columns]"));
    let disordered = "[right columns]\n\n[tables]";
    assert_eq!(said(disordered), late("[tables]"));
    let unknown = "[right columns]\n\n[sheet]";
    assert_eq!(said(unknown), late("[sheet]"));
    let operands = "[right columns]\n\n[operands]";
    assert_eq!(said(operands), late("[operands]"));
    let all = "'[settings]', '[sketches]', '[tables]', '[keys]', '[left columns]', \
               '[right columns]', '[left classes]', '[right classes]', '[expressions]', \
               '[conjuncts]' or the end of the text";
    let third = format!("line 4: expected {all}, found 'left exact 1'");
    assert_eq!(said("left exact 1"), third);
    all_said(&[(
        "[conjuncts]\n[rows]",
        "line 5: expected the end of the text, found '[rows]'",
    )]);
}

#[test]
fn estimates() {
    let cases = [
        (
            "exakt 1",
            "'exact', 'catalog', 'sketch', 'derived' or 'default', found 'exakt'",
        ),
        (
            "",
            "'exact', 'catalog', 'sketch', 'derived' or 'default', found the end of the line",
        ),
        (
            "exact",
            "a number that a float can hold, found the end of the line",
        ),
        ("exact x", "a number that a float can hold, found 'x'"),
        ("exact inf", "a number that a float can hold, found 'inf'"),
        ("exact NaN", "a number that a float can hold, found 'NaN'"),
        (
            "exact 1,240",
            "a number that a float can hold, found '1,240'",
        ),
        (
            "exact 1e400",
            "a number that a float can hold, found '1e400'",
        ),
        (
            "exact 1e-400",
            "a number that a float can hold, found '1e-400'",
        ),
        (
            "exact 1 2",
            "'lower', 'upper' or the end of the line, found '2'",
        ),
        (
            "exact 1 lower",
            "a number that a float can hold, found the end of the line",
        ),
        (
            "exact 1 upper 2 lower 1",
            "the end of the line, found 'lower'",
        ),
        (
            "exact 1 lower 1 lower 2",
            "'upper' or the end of the line, found 'lower'",
        ),
    ];
    for (estimate, due) in cases {
        let text = format!("[rows]\nleft {estimate} # mistaken\nright exact 1");
        let error = parse(&text).unwrap_err();
        assert_eq!(error.to_string(), format!("line 2: expected {due}"));
    }
    assert!(parse("[rows]\nleft exact 0e-400\nright exact 1").is_ok());
}

#[test]
fn settings_stand_all_or_none() {
    all_said(&[
        (
            "[settings]",
            "line 5: expected 'like_selectivity', found the end of the text",
        ),
        (
            "[settings]\nlike_selectivity 0.1\nunknown_scan_rows 5",
            "line 6: expected 'default_predicate_selectivity', found 'unknown_scan_rows'",
        ),
        (
            "[settings]\nlike_selectivity 0.1 0.2",
            "line 5: expected the end of the line, found '0.2'",
        ),
        (
            "[settings]\nlike_selectivity 0.1\n[tables]",
            "line 6: expected 'default_predicate_selectivity', found '[tables]'",
        ),
    ]);
}

#[test]
fn sketches() {
    all_said(&[
        (
            "[sketches]\nitem int32 1 lower 1 error 1",
            "line 5: expected '0:', found 'item'",
        ),
        (
            "[sketches]\n1: population 5",
            "line 5: expected '0:', found '1:'",
        ),
        (
            "[sketches]\n0: population 5\n2: population 5",
            "line 6: expected 'item' or '1:', found '2:'",
        ),
        (
            "[sketches]\n0: rows 5",
            "line 5: expected 'population', found 'rows'",
        ),
        (
            "[sketches]\n0: population 18446744073709551616",
            "line 5: expected a whole number up to 18446744073709551615, \
             found '18446744073709551616'",
        ),
        (
            "[sketches]\n0: population +5",
            "line 5: expected a whole number up to 18446744073709551615, found '+5'",
        ),
        (
            "[sketches]\n0: population 5\n\n item int32 1 lower 1",
            "line 7: expected 'error', found the end of the line",
        ),
        (
            "[sketches]\n0: population 5\nitem int32 1 error 1",
            "line 6: expected 'lower', found 'error'",
        ),
        (
            "[sketches]\n0: population 5\nitem int32 1 lower 1 error 1 2",
            "line 6: expected the end of the line, found '2'",
        ),
    ]);
}

#[test]
fn tables_and_keys() {
    all_said(&[
        ("[tables]\n1 rows 5", "line 5: expected 'table', found '1'"),
        (
            "[tables]\ntable 65536 rows 5",
            "line 5: expected a table number up to 65535, found '65536'",
        ),
        (
            "[tables]\ntable 1 rows many",
            "line 5: expected 'unknown' or a whole number below 18446744073709551615, \
             found 'many'",
        ),
        (
            "[tables]\ntable 1 rows 18446744073709551615",
            "line 5: expected 'unknown' or a whole number below 18446744073709551615, \
             found '18446744073709551615'",
        ),
        (
            "[keys]\nprimary table 1 name 1",
            "line 5: expected 'unique' or 'foreign', found 'primary'",
        ),
        (
            "[keys]\nunique table 1 name 1 references table 2 name 0",
            "line 5: expected the end of the line, found 'references'",
        ),
        (
            "[keys]\nforeign table 1 name 1",
            "line 5: expected 'references', found the end of the line",
        ),
        (
            "[keys]\nunique table 1 name -1",
            "line 5: expected a name number up to 65535, found '-1'",
        ),
    ]);
}

#[test]
fn columns_and_classes() {
    let column = |rest: &str| said(&format!("[left columns]\ncolumn {rest}"));
    let cases = [
        ("x", "a column number below 128, found 'x'"),
        ("128", "a column number below 128, found '128'"),
        (
            "1 fequency",
            "'base', 'lower', 'upper' or 'frequency', found 'fequency'",
        ),
        (
            "1 base table 65535 name 65535",
            "a table number below 65535, found '65535'",
        ),
        (
            "1 base table 1 name 65535",
            "a name number below 65535, found '65535'",
        ),
        (
            "1 frequency exact 1 sketch 0",
            "'lower', 'upper' or 'distinct', found 'sketch'",
        ),
        (
            "1 frequency exact 1 distinct exact 1 sketch 65535",
            "a sketch number below 65535, found '65535'",
        ),
        (
            "1 frequency exact 1 distinct exact 1 sketch 0 0",
            "the end of the line, found '0'",
        ),
        (
            "1 upper int32 1 lower int32 0",
            "'frequency', found 'lower'",
        ),
    ];
    for (rest, due) in cases {
        assert_eq!(column(rest), format!("line 5: expected {due}"));
    }
    all_said(&[
        (
            "[right classes]\ncolumns 1 2",
            "line 5: expected 'distinct', found 'columns'",
        ),
        (
            "[right classes]\ndistinct exact 1 1 2",
            "line 5: expected 'lower', 'upper' or 'columns', found '1'",
        ),
        (
            "[right classes]\ndistinct exact 1 columns 1 200",
            "line 5: expected a column number below 128, found '200'",
        ),
    ]);
}

#[test]
fn scalars() {
    let types = "'null', 'boolean', 'int32', 'int64', 'float64', 'decimal128', 'date32', \
                 'interval_month_day_nano' or 'interval_day_time'";
    let cases = [
        ("", format!("{types}, found the end of the line")),
        ("utf8 x", format!("{types}, found 'utf8'")),
        ("boolean 1", "'false' or 'true', found '1'".into()),
        (
            "int32 2147483648",
            "a whole number from -2147483648 to 2147483647, found '2147483648'".into(),
        ),
        (
            "date32 2024-10-01",
            "a whole number from -2147483648 to 2147483647, found '2024-10-01'".into(),
        ),
        (
            "int64 9223372036854775808",
            "a whole number from -9223372036854775808 to 9223372036854775807, \
             found '9223372036854775808'"
                .into(),
        ),
        (
            "float64 1e309",
            "a number that a float can hold, found '1e309'".into(),
        ),
        ("decimal128 5 scale 2", "'precision', found 'scale'".into()),
        (
            "decimal128 5 precision 256 scale 2",
            "a whole number up to 255, found '256'".into(),
        ),
        (
            "interval_day_time months 1",
            "'days', found 'months'".into(),
        ),
        (
            "interval_month_day_nano months 1 days 1",
            "'nanoseconds', found the end of the line".into(),
        ),
        ("null 0", "the end of the line, found '0'".into()),
    ];
    for (scalar, due) in cases {
        let rest = format!("[expressions]\n0: literal {scalar}");
        assert_eq!(said(&rest), format!("line 5: expected {due}"));
    }
}

#[test]
fn expressions_and_conjuncts() {
    let names = "'literal', 'column', 'like', 'other', 'not', 'is_null', 'is_not_null', \
                 'negate', 'eq', 'is_not_distinct_from', 'not_eq', 'lt', 'lt_eq', 'gt', 'gt_eq', \
                 'add', 'subtract', 'multiply', 'divide', 'and' or 'or'";
    let unknown = format!("line 5: expected {names}, found 'equal'");
    assert_eq!(said("[expressions]\n0: equal 1 2"), unknown);
    all_said(&[
        (
            "[expressions]\nother",
            "line 5: expected '0:', found 'other'",
        ),
        (
            "[expressions]\n0: other\n\n0: other",
            "line 7: expected '1:', found '0:'",
        ),
        (
            "[expressions]\n0: column 128",
            "line 5: expected a column number below 128, found '128'",
        ),
        (
            "[expressions]\n0: eq 1",
            "line 5: expected an expression number up to 65535, found the end of the line",
        ),
        (
            "[expressions]\n0: not 1 2",
            "line 5: expected the end of the line, found '2'",
        ),
        (
            "[expressions]\n0: and 1 b",
            "line 5: expected an expression number up to 65535, found 'b'",
        ),
        (
            "[expressions]\n0: like 1",
            "line 5: expected the end of the line, found '1'",
        ),
        (
            "[conjuncts]\n1 2",
            "line 5: expected the end of the line, found '2'",
        ),
        (
            "[conjuncts]\n1:",
            "line 5: expected an expression number up to 65535, found '1:'",
        ),
    ]);
    let run = format!("[expressions]\n0: and{}\n1: or 7", " 0".repeat(65_535));
    let due = "line 6: expected the end of the line after 65535 operands in all, found '7'";
    assert_eq!(said(&run), due);
}

#[test]
fn what_cannot_be_shown_is_escaped() {
    let due = "line 5: expected an expression number up to 65535, found '\\u{1b}[31m\\0'";
    assert_eq!(said("[conjuncts]\n\u{1b}[31m\0"), due);
}
