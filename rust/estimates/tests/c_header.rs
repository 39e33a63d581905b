//! The header and the example for C, compiled, linked with the library and run.

use estimates::{LONGEST_JOIN, LONGEST_PREDICATE, LONGEST_SPLIT, Refusal, join};
use sheet::samples::empty;
use sheet::writer::write;
use sheet::{damage, generator, worked};
use std::fs;
use std::io::Write;
use std::path::{Path, PathBuf};
use std::process::{Command, Stdio};

const C: [&str; 2] = ["cc", "-std=c99"];
const CPP: [&str; 2] = ["c++", "-std=c++11"];

fn package() -> &'static Path {
    Path::new(env!("CARGO_MANIFEST_DIR"))
}

/// Compiles a source without a warning, links it with the library and gives the program's path.
fn built(compiler: [&str; 2], source: &Path, name: &str) -> PathBuf {
    let program = Path::new(env!("CARGO_TARGET_TMPDIR")).join(name);
    let output = Command::new(compiler[0])
        .args([compiler[1], "-Wall", "-Wextra", "-Werror", "-pedantic"])
        .arg("-I")
        .arg(package().join("include"))
        .arg(source)
        .arg(package().join("../../target/staticlib/libestimates.a"))
        .arg("-o")
        .arg(&program)
        .output()
        .unwrap();
    let told = String::from_utf8_lossy(&output.stderr);
    assert!(output.status.success(), "{}: {told}", source.display());
    program
}

/// The same for a source that the test writes.
fn built_from(compiler: [&str; 2], text: &str, file: &str) -> PathBuf {
    let source = Path::new(env!("CARGO_TARGET_TMPDIR")).join(file);
    fs::write(&source, text).unwrap();
    built(compiler, &source, &format!("{file}.program"))
}

/// What a program prints on an input, and its status.
fn run(program: &Path, input: &[u8]) -> (String, Option<i32>) {
    let mut child = Command::new(program)
        .stdin(Stdio::piped())
        .stdout(Stdio::piped())
        .spawn()
        .unwrap();
    child.stdin.take().unwrap().write_all(input).unwrap();
    let output = child.wait_with_output().unwrap();
    (
        String::from_utf8(output.stdout).unwrap(),
        output.status.code(),
    )
}

/// The two figures that the example prints.
fn figures(printed: &str) -> Option<[f64; 2]> {
    let (selectivity, matching) = printed.strip_prefix("selectivity ")?.split_once('\n')?;
    let matching = matching.strip_prefix("match ")?.strip_suffix('\n')?;
    Some([selectivity.parse().ok()?, matching.parse().ok()?])
}

/// Runs the example on a sheet and holds it to what the crate answers.
fn compare(example: &Path, sheet: &[u8]) {
    let (printed, status) = run(example, sheet);
    match join(sheet) {
        Ok(join) => {
            let due = [join.selectivity.value, join.matching.value];
            assert_eq!(figures(&printed), Some(due), "{printed}");
            assert_eq!(status, Some(0));
        }
        Err(refusal) => {
            assert_eq!(printed, format!("refusal {}\n", refusal.number()));
            assert_eq!(status, Some(1));
        }
    }
}

#[test]
fn the_example_prints_what_the_crate_answers() {
    let example = built(C, &package().join("examples/join.c"), "join");
    let (printed, status) = run(&example, &write(&empty()));
    assert_eq!(
        (printed.as_str(), status),
        ("selectivity 1\nmatch 1\n", Some(0))
    );
    let (printed, status) = run(&example, &write(&worked::a_class_of_one()));
    assert_eq!((printed.as_str(), status), ("refusal 3\n", Some(1)));
    compare(&example, &[]);
    compare(&example, &[0; 65_536]);
    for sheet in worked::accepted().iter().chain(&worked::refused()) {
        compare(&example, &write(sheet));
    }
    for seed in 0..40 {
        let sheet = generator::sheet(seed);
        compare(&example, &write(&sheet));
        compare(&example, &damage::damaged(seed, &sheet));
    }
}

/// The header's name of a refusal: `BadScalar` is `ESTIMATES_BAD_SCALAR`.
fn header_name(refusal: Refusal) -> String {
    let mut name = "ESTIMATES".to_string();
    for letter in format!("{refusal:?}").chars() {
        if letter.is_ascii_uppercase() {
            name.push('_');
        }
        name.push(letter.to_ascii_uppercase());
    }
    name
}

fn refusal_names() -> Vec<(String, u64)> {
    let named = |refusal: Refusal| (header_name(refusal), u64::from(refusal.number()));
    Refusal::ALL.map(named).to_vec()
}

#[test]
fn the_headers_numbers_are_the_crates() {
    let mut due = refusal_names();
    due.push(("ESTIMATES_REFUSED".to_string(), 1 << 32));
    due.push(("ESTIMATES_LONGEST_JOIN".to_string(), LONGEST_JOIN as u64));
    due.push((
        "ESTIMATES_LONGEST_PREDICATE".to_string(),
        LONGEST_PREDICATE as u64,
    ));
    due.push(("ESTIMATES_LONGEST_SPLIT".to_string(), LONGEST_SPLIT as u64));
    let prints: String = due
        .iter()
        .map(|(name, _)| format!("    printf(\"{name} %llu\\n\", (unsigned long long){name});\n"))
        .collect();
    let text = format!(
        "#include \"estimates.h\"\n#include <stdio.h>\n\nint main(void)\n{{\n{prints}    return 0;\n}}\n"
    );
    let program = built_from(C, &text, "numbers.c");
    let lines: String = due
        .iter()
        .map(|(name, number)| format!("{name} {number}\n"))
        .collect();
    assert_eq!(run(&program, &[]), (lines, Some(0)));
}

#[test]
fn the_header_names_no_other_refusal() {
    let header = fs::read_to_string(package().join("include/estimates.h")).unwrap();
    let named: Vec<(String, u64)> = header
        .lines()
        .filter_map(|line| line.trim().trim_end_matches(',').split_once(" = "))
        .map(|(name, number)| (name.to_string(), number.parse().unwrap()))
        .collect();
    assert_eq!(named, refusal_names());
}

/// A program for C and C++ that names all three functions and passes empty slices as NULL.
fn empty_slices() -> String {
    let bytes: Vec<String> = write(&empty()).iter().map(u8::to_string).collect();
    let calls = [
        "estimates_join(NULL, 0, NULL, 0)",
        "estimates_predicate(NULL, 0, 0, NULL, 0)",
        "estimates_split(NULL, 0, 0, NULL, 0)",
        "estimates_join(sheet, sizeof sheet, NULL, 0)",
        "estimates_join(sheet, sizeof sheet, out, sizeof out)",
        "estimates_predicate(sheet, sizeof sheet, 0, out, sizeof out)",
        "estimates_split(sheet, sizeof sheet, 0, NULL, 0)",
    ]
    .map(|call| format!("    printf(\"%llu\\n\", (unsigned long long){call});\n"));
    format!(
        "#include \"estimates.h\"\n#include <stdio.h>\n\nstatic const uint8_t sheet[] = {{{}}};\n\
         static uint8_t out[ESTIMATES_LONGEST_JOIN];\n\nint main(void)\n{{\n{}    return 0;\n}}\n",
        bytes.join(", "),
        calls.concat()
    )
}

/// What that program prints.
fn empty_slices_due() -> String {
    let refused = |number: u64| (1 << 32) + number;
    let answers = [
        refused(2),
        refused(2),
        refused(2),
        refused(12),
        68,
        refused(11),
        refused(11),
    ];
    answers.map(|answer| format!("{answer}\n")).concat()
}

#[test]
fn empty_slices_from_c() {
    let program = built_from(C, &empty_slices(), "empty.c");
    assert_eq!(run(&program, &[]), (empty_slices_due(), Some(0)));
}

/// Without a C++ compiler there is nothing to see.
#[test]
fn empty_slices_from_cpp() {
    if Command::new(CPP[0]).arg("--version").output().is_err() {
        eprintln!("no {}: the header is not tried as C++", CPP[0]);
        return;
    }
    let program = built_from(CPP, &empty_slices(), "empty.cpp");
    assert_eq!(run(&program, &[]), (empty_slices_due(), Some(0)));
}
