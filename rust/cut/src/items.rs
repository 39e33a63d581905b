//! The items at the top of a Rust file, found by name.

use crate::tokens::{Token, tokens};

/// An item: its kind and name, as `fn find` or `impl Deref for Bounded`, and its bytes, from its
/// first attribute to its last brace or semicolon. A doc comment in front of it is left out.
#[derive(Debug, Clone, PartialEq, Eq)]
pub struct Item {
    pub name: String,
    pub start: usize,
    pub end: usize,
}

const NAMED: [&str; 7] = ["fn", "struct", "enum", "trait", "type", "const", "mod"];

/// The index behind the bracket that closes the one at `open`.
fn closed(text: &str, tokens: &[Token], open: usize) -> usize {
    let mut depth = 0usize;
    for (i, token) in tokens.iter().enumerate().skip(open) {
        match token.text(text) {
            "(" | "[" | "{" => depth += 1,
            ")" | "]" | "}" => {
                depth -= 1;
                if depth == 0 {
                    return i + 1;
                }
            }
            _ => {}
        }
    }
    tokens.len()
}

/// The index behind the item that starts at `first`: past its semicolon or its braces.
fn item_end(text: &str, tokens: &[Token], first: usize) -> usize {
    let mut i = first;
    while i < tokens.len() {
        match tokens[i].text(text) {
            ";" => return i + 1,
            "{" => {
                let end = closed(text, tokens, i);
                let use_list = tokens.get(end).is_some_and(|t| t.text(text) == ";");
                return if use_list { end + 1 } else { end };
            }
            "(" | "[" => i = closed(text, tokens, i),
            _ => i += 1,
        }
    }
    i
}

/// The index behind the angle brackets that open at `open`.
fn angles_end(text: &str, tokens: &[Token], open: usize) -> usize {
    let mut depth = 0usize;
    for (i, token) in tokens.iter().enumerate().skip(open) {
        match token.text(text) {
            "<" => depth += 1,
            ">" => {
                depth -= 1;
                if depth == 0 {
                    return i + 1;
                }
            }
            _ => {}
        }
    }
    tokens.len()
}

/// An impl's name: the last names of its paths, without what stands in angle brackets.
fn impl_name(text: &str, tokens: &[Token], keyword: usize) -> String {
    let mut parts: Vec<&str> = vec!["impl"];
    let mut i = keyword + 1;
    while i < tokens.len() {
        match tokens[i].text(text) {
            "{" | "where" => break,
            "<" => {
                i = angles_end(text, tokens, i);
                continue;
            }
            // what came before was a path's earlier name
            ":" if parts.len() > 1 && parts.last() != Some(&"for") => {
                parts.pop();
            }
            part if part.starts_with(|c: char| c.is_alphabetic()) => parts.push(part),
            _ => {}
        }
        i += 1;
    }
    parts.join(" ")
}

fn item_name(text: &str, tokens: &[Token]) -> String {
    let mut i = 0;
    while i < tokens.len() {
        match tokens[i].text(text) {
            "#" => {
                i = closed(text, tokens, i + 1);
                continue;
            }
            "impl" => return impl_name(text, tokens, i),
            keyword if NAMED.contains(&keyword) => {
                let name = tokens.get(i + 1).map_or("", |t| t.text(text));
                if !NAMED.contains(&name) {
                    return format!("{keyword} {name}");
                }
                i += 1;
            }
            "use" => return "use".to_string(),
            _ => i += 1,
        }
    }
    String::new()
}

/// All items of `text`.
pub fn items(text: &str) -> Vec<Item> {
    let tokens = tokens(text);
    let mut found = Vec::new();
    let mut first = 0;
    while first < tokens.len() {
        let mut keyword = first;
        while tokens.get(keyword).is_some_and(|t| t.text(text) == "#") {
            keyword = closed(text, &tokens, keyword + 1);
        }
        let end = item_end(text, &tokens, keyword);
        found.push(Item {
            name: item_name(text, &tokens[first..end]),
            start: tokens[first].start,
            end: tokens[end - 1].end,
        });
        first = end;
    }
    found
}

/// The one item of that name, or why there isn't one.
pub fn item(text: &str, name: &str) -> Result<Item, String> {
    let mut all = items(text).into_iter().filter(|item| item.name == name);
    match (all.next(), all.next()) {
        (Some(item), None) => Ok(item),
        (None, _) => Err(format!("there is no item '{name}'")),
        (Some(_), Some(_)) => Err(format!("there are several items '{name}'")),
    }
}

#[cfg(test)]
mod tests {
    use super::*;

    const TEXT: &str = r#"
use a::{b, c};
/// Words.
#[derive(Debug)]
pub struct Pair(u8, u8);
impl<T> std::fmt::Display for Pair { fn f() { "}"; } }
impl<'a, T: Into<u8>> Deref for &'a Held<T> {}
pub(crate) const fn two() -> [u8; 2] { [1, 2] }
impl Pair { fn g() -> u8 { 1 } }
const N: [u8; 2] = [1; 2];
"#;

    #[test]
    fn names() {
        let names: Vec<String> = items(TEXT).into_iter().map(|item| item.name).collect();
        assert_eq!(
            names,
            [
                "use",
                "struct Pair",
                "impl Display for Pair",
                "impl Deref for Held",
                "fn two",
                "impl Pair",
                "const N"
            ]
        );
    }

    #[test]
    fn an_item_is_cut_whole() {
        let found = item(TEXT, "struct Pair").unwrap();
        assert_eq!(
            &TEXT[found.start..found.end],
            "#[derive(Debug)]\npub struct Pair(u8, u8);"
        );
        let found = item(TEXT, "impl Display for Pair").unwrap();
        assert!(TEXT[found.start..found.end].ends_with("{ fn f() { \"}\"; } }"));
    }

    #[test]
    fn a_name_that_is_not_there_or_there_twice() {
        assert!(item(TEXT, "fn three").is_err());
        assert!(item("fn f() {} fn f() {}", "fn f").is_err());
    }
}
