//! Cutting items out of files by name, and holding what was cut to what stands there.

use crate::items::item;
use crate::sha256::sha256;
use std::fs;
use std::path::Path;

/// An item's text and the line it starts on, counted from 1.
pub struct Piece {
    pub text: String,
    pub line: usize,
}

/// What is cut out of one file.
pub struct Cut<'a> {
    pub file: &'a str,
    pub sum: &'a str,
    pub source: String,
    pub pieces: Vec<Piece>,
}

/// A file's name, the sum it must have, and the names of its items.
type Wanted<'a> = (&'a str, &'a str, Vec<&'a str>);

fn wanted(list: &str) -> Result<Vec<Wanted<'_>>, String> {
    let mut files: Vec<Wanted> = Vec::new();
    for line in list.lines().map(str::trim) {
        let words: Vec<&str> = line.split(' ').collect();
        match (words.as_slice(), files.last_mut()) {
            ([""], _) | (["#", ..], _) => {}
            (["file", file, sum], _) => files.push((file, sum, Vec::new())),
            (_, Some((_, _, names))) => names.push(line),
            (_, None) => {
                return Err(format!(
                    "the list of items: '{line}' stands before any file"
                ));
            }
        }
    }
    Ok(files)
}

fn piece(source: &str, file: &str, name: &str) -> Result<Piece, String> {
    let found = item(source, name).map_err(|why| format!("{file}: {why}"))?;
    Ok(Piece {
        text: source[found.start..found.end].to_string(),
        line: source[..found.start].matches('\n').count() + 1,
    })
}

fn cut<'a>(folder: &Path, (file, sum, names): Wanted<'a>) -> Result<Cut<'a>, String> {
    let path = folder.join(file);
    let source = fs::read_to_string(&path).map_err(|e| format!("{}: {e}", path.display()))?;
    let has = sha256(source.as_bytes());
    if has != sum {
        return Err(format!(
            "{}: the file's SHA-256 is {has}, and {sum} is expected",
            path.display()
        ));
    }
    let pieces = names
        .iter()
        .map(|name| piece(&source, file, name))
        .collect::<Result<_, _>>()?;
    Ok(Cut {
        file,
        sum,
        source,
        pieces,
    })
}

/// Cuts every item of the list out of the files in `folder`.
pub fn cut_all<'a>(folder: &Path, list: &'a str) -> Result<Vec<Cut<'a>>, String> {
    wanted(list)?
        .into_iter()
        .map(|file| cut(folder, file))
        .collect()
}

/// The pieces one behind the other.
pub fn joined(cut: &Cut) -> String {
    cut.pieces
        .iter()
        .map(|piece| format!("{}\n\n", piece.text))
        .collect()
}

/// Writes the pieces, reads them back, and holds each to the lines of the source it was cut from.
pub fn write_checked(path: &Path, cut: &Cut) -> Result<(), String> {
    fs::write(path, joined(cut)).map_err(|e| format!("{}: {e}", path.display()))?;
    let written = fs::read_to_string(path).map_err(|e| format!("{}: {e}", path.display()))?;
    let source: Vec<&str> = cut.source.lines().collect();
    let mut lines = written.lines();
    for piece in &cut.pieces {
        let length = piece.text.lines().count();
        let there = source.get(piece.line - 1..piece.line - 1 + length);
        let here: Vec<&str> = lines.by_ref().take(length).collect();
        if there != Some(here.as_slice()) || lines.next() != Some("") {
            return Err(format!(
                "{}: what was cut from line {} is not what stands there",
                cut.file, piece.line
            ));
        }
    }
    match lines.next() {
        None => Ok(()),
        Some(more) => Err(format!("{}: '{more}' was not cut from it", cut.file)),
    }
}

#[cfg(test)]
mod tests {
    use super::*;
    use std::path::PathBuf;

    const SOURCE: &str = "struct A;\n\n// between\nfn f() {\n    1\n}\nfn g() {}\n";

    /// A folder of the test's own that holds SOURCE as a.rs, and a list that names two of its items.
    fn folder(name: &str) -> (PathBuf, String) {
        let folder = std::env::temp_dir().join(format!("cut-{}-{name}", std::process::id()));
        fs::create_dir_all(&folder).unwrap();
        fs::write(folder.join("a.rs"), SOURCE).unwrap();
        let list = format!(
            "# items\nfile a.rs {}\nfn f\nstruct A\n",
            sha256(SOURCE.as_bytes())
        );
        (folder, list)
    }

    #[test]
    fn items_are_cut_and_written_as_they_stand() {
        let (folder, list) = folder("whole");
        let cuts = cut_all(&folder, &list).unwrap();
        assert_eq!(cuts[0].pieces[0].line, 4);
        let out = folder.join("out.rs");
        write_checked(&out, &cuts[0]).unwrap();
        assert_eq!(
            fs::read_to_string(out).unwrap(),
            "fn f() {\n    1\n}\n\nstruct A;\n\n"
        );
        fs::remove_dir_all(folder).unwrap();
    }

    #[test]
    fn another_file_is_refused() {
        let (folder, list) = folder("changed");
        fs::write(folder.join("a.rs"), SOURCE.replace('1', "2")).unwrap();
        assert!(cut_all(&folder, &list).err().unwrap().contains("SHA-256"));
        fs::remove_dir_all(folder).unwrap();
    }

    #[test]
    fn a_name_that_is_not_there_is_refused() {
        let (folder, list) = folder("missing");
        let why = cut_all(&folder, &format!("{list}fn h\n")).err().unwrap();
        assert_eq!(why, "a.rs: there is no item 'fn h'");
        fs::remove_dir_all(folder).unwrap();
    }

    #[test]
    fn a_piece_that_does_not_stand_there_is_refused() {
        let (folder, list) = folder("other");
        let mut cuts = cut_all(&folder, &list).unwrap();
        cuts[0].pieces[0].text = "fn f() {\n    2\n}".to_string();
        assert!(write_checked(&folder.join("out.rs"), &cuts[0]).is_err());
        fs::remove_dir_all(folder).unwrap();
    }
}
