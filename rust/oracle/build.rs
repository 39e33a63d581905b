//! Cuts the functions and types that `items.txt` names out of the optimizer's files, unchanged, and
//! writes them, and copies of them with changes, for `src/` to include.
//!
//! The folder is `../shared/docs/src` beside the repository, or what OPTD_SOURCE names.

#[path = "build/copies.rs"]
mod copies;

use cut::cutting::{Cut, cut_all, write_checked};
use std::path::{Path, PathBuf};
use std::{env, fs, process};

/// The folder, and how it was come by.
fn source_folder() -> (PathBuf, &'static str) {
    println!("cargo::rerun-if-env-changed=OPTD_SOURCE");
    let named = env::var_os("OPTD_SOURCE").filter(|folder| !folder.is_empty());
    if let Some(folder) = named {
        return (PathBuf::from(folder), "which OPTD_SOURCE names");
    }
    let beside = Path::new(env!("CARGO_MANIFEST_DIR")).ancestors().nth(3);
    let folder = beside.unwrap_or(Path::new("/")).join("shared/docs/src");
    (
        folder,
        "beside the repository; OPTD_SOURCE can name another",
    )
}

/// The folder of the files, if it is there.
fn files() -> Result<PathBuf, String> {
    let (folder, how) = source_folder();
    let files = folder.join("optd/core/src");
    println!("cargo::rerun-if-changed={}", files.display());
    if files.is_dir() {
        return Ok(files);
    }
    Err(format!(
        "the optimizer's source is not there: expected the folder optd/core/src of cmu-db/optd at 429db6b83d \
         in {} ({how})",
        folder.display()
    ))
}

/// The files, their sums and how many items were cut, as a Rust table.
fn sums(cuts: &[Cut]) -> String {
    let row = |cut: &Cut| {
        format!(
            "    ({:?}, {:?}, {}),\n",
            cut.file,
            cut.sum,
            cut.pieces.len()
        )
    };
    let rows: String = cuts.iter().map(row).collect();
    format!(
        "/// The source's files, their SHA-256 and how many items were cut.\n\
         pub const SUMS: &[(&str, &str, usize)] = &[\n{rows}];\n"
    )
}

fn write_all(out: &Path) -> Result<(), String> {
    let list = fs::read_to_string("items.txt").map_err(|e| format!("items.txt: {e}"))?;
    let cuts = cut_all(&files()?, &list)?;
    for cut in &cuts {
        write_checked(&out.join(cut.file), cut)?;
    }
    let analysis = cuts.iter().find(|cut| cut.file == "analysis.rs");
    copies::write_copies(out, analysis.ok_or("items.txt names no analysis.rs")?)?;
    fs::write(out.join("sums.rs"), sums(&cuts)).map_err(|e| e.to_string())
}

fn main() {
    println!("cargo::rerun-if-changed=items.txt");
    println!("cargo::rerun-if-changed=build.rs");
    println!("cargo::rerun-if-changed=build");
    let out = PathBuf::from(env::var_os("OUT_DIR").unwrap_or_default());
    if let Err(why) = write_all(&out) {
        println!("cargo::error={why}");
        process::exit(1);
    }
}
