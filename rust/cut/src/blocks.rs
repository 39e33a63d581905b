//! The blocks of a text's functions, so that a copy can note which of them a run reaches.

use crate::tokens::{Token, tokens};

/// A block that a run may or may not enter: the function it stands in, what opens it, the line it
/// starts on, counted from 1, and the byte it starts at. An arm of `match` that is an expression
/// without braces counts too; then `end` is the byte behind that expression.
#[derive(Debug, Clone, PartialEq, Eq)]
pub struct Block {
    pub function: String,
    pub opened_by: &'static str,
    pub line: usize,
    pub start: usize,
    pub end: Option<usize>,
}

/// A keyword whose braces are still to come, the number of brackets open at it, and whether a
/// pattern of `let` is being read, whose braces are no block.
struct Awaited {
    keyword: &'static str,
    depth: usize,
    in_pattern: bool,
}

struct Walk<'a> {
    text: &'a str,
    depth: usize,
    awaited: Vec<Awaited>,
    functions: Vec<(String, usize)>,
    next_function: Option<String>,
    found: Vec<Block>,
}

const OPENERS: [&str; 8] = ["impl", "if", "else", "while", "for", "loop", "match", "fn"];

impl Walk<'_> {
    fn awaits(&self, keyword: &str) -> bool {
        self.awaited
            .last()
            .is_some_and(|a| a.keyword == keyword && a.depth == self.depth)
    }

    fn await_braces(&mut self, keyword: &'static str) {
        if keyword == "if" && self.awaits("else") {
            self.awaited.pop();
        }
        // `impl A for B`, and a type `impl A` that a function gives
        if keyword == "for" && self.awaits("impl") || keyword == "impl" && self.awaits("fn") {
            return;
        }
        self.awaited.push(Awaited {
            keyword,
            depth: self.depth,
            in_pattern: false,
        });
    }

    /// What the braces that open here belong to, if they are a block's.
    fn opener(&mut self, before: &str) -> Option<&'static str> {
        if self
            .awaited
            .last()
            .is_some_and(|a| a.depth == self.depth && !a.in_pattern)
        {
            return self
                .awaited
                .pop()
                .map(|a| a.keyword)
                .filter(|k| *k != "match" && *k != "impl");
        }
        match before {
            "=>" => Some("arm"),
            "|" => Some("closure"),
            _ => None,
        }
    }

    fn open(&mut self, token: &Token, before: &str) {
        let Some(opened_by) = self.opener(before) else {
            return;
        };
        if opened_by == "fn"
            && let Some(name) = self.next_function.take()
        {
            self.functions.push((name, self.depth));
        }
        self.note(opened_by, token.end, None);
    }

    fn note(&mut self, opened_by: &'static str, start: usize, end: Option<usize>) {
        self.found.push(Block {
            function: self
                .functions
                .last()
                .map_or(String::new(), |(name, _)| name.clone()),
            opened_by,
            line: self.text[..start].matches('\n').count() + 1,
            start,
            end,
        });
    }

    fn close(&mut self) {
        self.depth -= 1;
        let depth = self.depth;
        self.awaited.retain(|a| a.depth <= depth);
        if self
            .functions
            .last()
            .is_some_and(|(_, depth)| *depth == self.depth)
        {
            self.functions.pop();
        }
    }

    fn pattern(&mut self, begins: bool) {
        let depth = self.depth;
        if let Some(last) = self.awaited.last_mut().filter(|a| a.depth == depth) {
            last.in_pattern = begins;
        }
    }
}

/// The byte behind the expression that starts at `first`: it ends at a comma or at the bracket that
/// closes what is around it.
fn expression_end(text: &str, tokens: &[Token], first: usize) -> usize {
    let mut depth = 0usize;
    for i in first..tokens.len() {
        match tokens[i].text(text) {
            "," if depth == 0 => return tokens[i - 1].end,
            "(" | "[" | "{" => depth += 1,
            ")" | "]" | "}" if depth == 0 => return tokens[i - 1].end,
            ")" | "]" | "}" => depth -= 1,
            _ => {}
        }
    }
    text.len()
}

/// The blocks of all functions of `text`, in their order: bodies, branches of `if` and `else`,
/// loops and closures that have braces, and arms of `match`.
pub fn blocks(text: &str) -> Vec<Block> {
    let tokens = tokens(text);
    let mut walk = Walk {
        text,
        depth: 0,
        awaited: Vec::new(),
        functions: Vec::new(),
        next_function: None,
        found: Vec::new(),
    };
    for (i, token) in tokens.iter().enumerate() {
        let word = token.text(text);
        let before = if i == 0 { "" } else { tokens[i - 1].text(text) };
        let arrow = before == ">"
            && i > 1
            && tokens[i - 2].text(text) == "="
            && tokens[i - 2].end == tokens[i - 1].start;
        if arrow && word != "{" {
            walk.note(
                "arm",
                tokens[i - 1].end,
                Some(expression_end(text, &tokens, i)),
            );
        }
        if let Some(keyword) = OPENERS.iter().find(|k| **k == word) {
            walk.await_braces(keyword);
            if word == "fn" {
                walk.next_function = tokens.get(i + 1).map(|t| t.text(text).to_string());
            }
        }
        match word {
            "let" => walk.pattern(true),
            "=" => walk.pattern(false),
            ";" => {
                let depth = walk.depth;
                walk.awaited.retain(|a| a.depth < depth);
            }
            "{" => {
                walk.open(token, if arrow { "=>" } else { before });
                walk.depth += 1;
            }
            "(" | "[" => walk.depth += 1,
            "}" | ")" | "]" => walk.close(),
            _ => {}
        }
    }
    walk.found
}

#[cfg(test)]
mod tests {
    use super::*;

    #[test]
    fn an_arm_without_braces_has_its_end() {
        let text = "fn f() { match a { 1 => g(1, [2]), _ => P { a: 1 } } }";
        let arms: Vec<&str> = blocks(text)
            .iter()
            .filter_map(|b| b.end.map(|end| &text[b.start..end]))
            .collect();
        assert_eq!(arms, [" g(1, [2])", " P { a: 1 }"]);
    }

    #[test]
    fn blocks_and_no_others() {
        let text = "
fn f(x: Option<P>) -> P {
    let Some(P { a, b }) = x else { return P { a: 1, b: 2 }; };
    if let P { a: 1, .. } = (P { a, b }) && b == 2 { loop { break; } } else if a == 2 {}
    fn g() {}
    match a { 1 => { g() } _ => P { a, b }, };
    (0..2).map(|x| { x }).for_each(drop);
    for i in 0..2 { h::<{ 3 }>(i) }
    P { a, b }
}
impl A for B { fn k(x: impl A) -> impl A { x } }";
        let found: Vec<String> = blocks(text)
            .into_iter()
            .map(|b| format!("{} {} {}", b.function, b.opened_by, b.line))
            .collect();
        assert_eq!(
            found,
            [
                "f fn 2",
                "f else 3",
                "f if 4",
                "f loop 4",
                "f if 4",
                "g fn 5",
                "f arm 6",
                "f arm 6",
                "f closure 7",
                "f for 8",
                "k fn 11"
            ]
        );
    }
}
