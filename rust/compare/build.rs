//! Links the static library that `rust/libraries pieces` builds.

use std::path::Path;
use std::process;

fn main() {
    let folder = Path::new(env!("CARGO_MANIFEST_DIR")).join("../../target/staticlib");
    let library = folder.join("libpieces.a");
    println!("cargo::rerun-if-changed={}", library.display());
    if !library.exists() {
        println!(
            "cargo::error={} is not there: run 'rust/libraries pieces' first",
            library.display()
        );
        process::exit(1);
    }
    println!("cargo::rustc-link-search=native={}", folder.display());
    println!("cargo::rustc-link-lib=static=pieces");
}
