//! Runs the built program.

use std::io::Write;
use std::path::PathBuf;
use std::process::{Command, Stdio};

/// What a run left.
#[derive(Debug, PartialEq, Eq)]
pub struct Run {
    pub status: Option<i32>,
    pub out: Vec<u8>,
    pub err: String,
}

impl Run {
    /// Standard output of a run that went well.
    pub fn answer(self) -> Vec<u8> {
        assert_eq!((self.status, self.err.as_str()), (Some(0), ""));
        self.out
    }

    /// The same, as text.
    pub fn words(self) -> String {
        String::from_utf8(self.answer()).unwrap()
    }

    /// Standard error of a run that ended with this status and wrote nothing else.
    pub fn failure(self, status: i32) -> String {
        assert_eq!(self.status, Some(status), "{}", self.err);
        assert_eq!(self.out, b"");
        self.err
    }
}

/// Runs the program with these arguments and this standard input.
pub fn sheet(arguments: &[&str], input: &[u8]) -> Run {
    let mut child = Command::new(env!("CARGO_BIN_EXE_sheet"))
        .args(arguments)
        .stdin(Stdio::piped())
        .stdout(Stdio::piped())
        .stderr(Stdio::piped())
        .spawn()
        .unwrap();
    // A run that needs no input may end before it is written.
    let _ = child.stdin.take().unwrap().write_all(input);
    let output = child.wait_with_output().unwrap();
    Run {
        status: output.status.code(),
        out: output.stdout,
        err: String::from_utf8(output.stderr).unwrap(),
    }
}

/// A file of the folder `samples`.
pub fn sample(name: &str) -> PathBuf {
    let folder = PathBuf::from(env!("CARGO_MANIFEST_DIR")).join("../../samples");
    folder.join(name)
}
