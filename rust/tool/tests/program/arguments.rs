//! The command line: what is wrong with it is told with the usage, by status 2.

use crate::run::sheet;

#[test]
fn help_is_given() {
    let usage = sheet(&["help"], b"").words();
    for command in ["text", "bytes", "join", "predicate N", "split N", "help"] {
        assert!(
            usage.contains(&format!("\n  sheet {command} ")),
            "{command}"
        );
    }
    assert_eq!(sheet(&["--help"], b"").words(), usage);
    assert_eq!(sheet(&["-h"], b"").words(), usage);
}

#[test]
fn wrong_arguments() {
    let usage = sheet(&["help"], b"").words();
    let commands = "text, bytes, join, predicate, split or help";
    let number = "the number of an expression, up to 65535";
    let cases: [(&[&str], &str, &str); 10] = [
        (&[], commands, "no argument"),
        (&["joins"], commands, "'joins'"),
        (&["predicate"], number, "no argument"),
        (&["predicate", "x.sheet"], number, "'x.sheet'"),
        (&["split", "65536"], number, "'65536'"),
        (&["split", "-1"], number, "'-1'"),
        (&["split", "+1"], number, "'+1'"),
        (&["text", "one", "two"], "no more arguments", "'two'"),
        (
            &["predicate", "1", "one", "two"],
            "no more arguments",
            "'two'",
        ),
        (&["help", "join"], "no more arguments", "'join'"),
    ];
    for (arguments, expected, found) in cases {
        let due = format!("sheet: expected {expected}, found {found}\n\n{usage}\n");
        assert_eq!(sheet(arguments, b"").failure(2), due, "{arguments:?}");
    }
}

#[test]
fn a_file_that_cannot_be_read() {
    let said = sheet(&["join", "no such file"], b"").failure(2);
    assert_eq!(
        said,
        "no such file: No such file or directory (os error 2)\n"
    );
    let folder = env!("CARGO_MANIFEST_DIR");
    let said = sheet(&["text", folder], b"").failure(2);
    assert_eq!(said, format!("{folder}: Is a directory (os error 21)\n"));
}

#[test]
fn input_without_an_end_is_refused() {
    let said = sheet(&["text", "/dev/zero"], b"").failure(1);
    assert_eq!(
        said,
        "/dev/zero: expected at most 16777216 bytes, found more\n"
    );
}
