//! What is read, and the name under which messages speak of it.

use crate::arguments::Request;
use crate::failure::Failure;
use std::fs::File;
use std::io::{self, Read};
use std::path::Path;

/// No more is read than this. A sheet has at most 65,535 bytes, and its text some hundred thousand.
const MOST: u64 = 16 << 20;

/// The bytes of a file or of standard input.
pub struct Input {
    pub name: String,
    pub bytes: Vec<u8>,
}

impl Input {
    pub fn read(request: &Request) -> Result<Input, Failure> {
        let name = match &request.file {
            Some(path) => path.display().to_string(),
            None => "standard input".into(),
        };
        let bytes = match &request.file {
            Some(path) => read_file(path),
            None => read_all(io::stdin().lock()),
        };
        let bytes = bytes.map_err(|error| Failure::Cannot(format!("{name}: {error}")))?;
        if bytes.len() as u64 > MOST {
            let expected = format!("expected at most {MOST} bytes, found more");
            return Err(Failure::Refused(format!("{name}: {expected}")));
        }
        Ok(Input { name, bytes })
    }
}

fn read_file(path: &Path) -> io::Result<Vec<u8>> {
    read_all(File::open(path)?)
}

/// Everything, or one byte more than there may be.
fn read_all(source: impl Read) -> io::Result<Vec<u8>> {
    let mut bytes = Vec::new();
    source.take(MOST + 1).read_to_end(&mut bytes)?;
    Ok(bytes)
}
