//! Changes to a copy of a cut text, placed by the tokens that lead to them.

use crate::items::item;
use crate::tokens::{Token, tokens};

/// What is done to the token that a path leads to.
#[derive(Debug, Clone, Copy, PartialEq, Eq)]
pub enum Change {
    /// The text takes the token's place.
    Replace(&'static str),
    /// The text stands behind the token.
    After(&'static str),
}

/// A change within an item. The path leads to a token: the first token of the path is the first
/// such one of the item, and each next one the first such one behind the one before.
#[derive(Debug, Clone, Copy, PartialEq, Eq)]
pub struct Edit {
    pub item: &'static str,
    pub path: &'static [&'static str],
    pub change: Change,
}

fn token_at(text: &str, edit: &Edit) -> Result<Token, String> {
    let within = item(text, edit.item)?;
    let mut left = tokens(text)
        .into_iter()
        .filter(|t| t.start >= within.start && t.end <= within.end);
    let mut found = None;
    for name in edit.path {
        found = left.find(|t| t.text(text) == *name);
        if found.is_none() {
            return Err(format!(
                "'{}' has no token '{name}' on the path {:?}",
                edit.item, edit.path
            ));
        }
    }
    found.ok_or_else(|| format!("an edit of '{}' has no path", edit.item))
}

/// The text with every edit done. The edits' places are those of the text as it is given.
pub fn edited(text: &str, edits: &[Edit]) -> Result<String, String> {
    let mut changes = Vec::new();
    for edit in edits {
        let token = token_at(text, edit)?;
        changes.push(match edit.change {
            Change::Replace(with) => (token.start, token.end, with),
            Change::After(with) => (token.end, token.end, with),
        });
    }
    changes.sort();
    let mut result = String::new();
    let mut at = 0;
    for (start, end, with) in changes {
        if start < at {
            return Err(format!("two edits meet at '{}'", &text[start..end]));
        }
        result.push_str(&text[at..start]);
        result.push_str(with);
        at = end;
    }
    result.push_str(&text[at..]);
    Ok(result)
}

#[cfg(test)]
mod tests {
    use super::*;

    const TEXT: &str = "fn f(a: u8) -> u8 { a + 1 } fn g(a: u8) -> u8 { a + 1 }";

    #[test]
    fn an_edit_goes_where_its_path_leads() {
        let edits = [
            Edit {
                item: "fn g",
                path: &["{", "a"],
                change: Change::Replace("2 * a"),
            },
            Edit {
                item: "fn g",
                path: &["{", "1"],
                change: Change::After("0"),
            },
        ];
        assert_eq!(
            edited(TEXT, &edits).unwrap(),
            "fn f(a: u8) -> u8 { a + 1 } fn g(a: u8) -> u8 { 2 * a + 10 }"
        );
    }

    #[test]
    fn a_path_that_leads_nowhere_is_an_error() {
        let edit = Edit {
            item: "fn f",
            path: &["+", "2"],
            change: Change::After(""),
        };
        assert!(edited(TEXT, &[edit]).is_err());
    }
}
