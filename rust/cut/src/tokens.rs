//! The tokens of a Rust text. Comments and white space are passed over.

/// A token's bytes within its text.
#[derive(Debug, Clone, Copy, PartialEq, Eq)]
pub struct Token {
    pub start: usize,
    pub end: usize,
}

impl Token {
    pub fn text<'a>(&self, of: &'a str) -> &'a str {
        &of[self.start..self.end]
    }
}

fn is_word(byte: u8) -> bool {
    byte.is_ascii_alphanumeric() || byte == b'_' || byte >= 0x80
}

/// The end of the line comment at `at`.
fn line_comment(bytes: &[u8], at: usize) -> usize {
    let left = &bytes[at..];
    at + left.iter().position(|b| *b == b'\n').unwrap_or(left.len())
}

/// The end of the block comment at `at`; such comments nest.
fn block_comment(bytes: &[u8], at: usize) -> usize {
    let mut depth = 0;
    let mut i = at;
    while i < bytes.len() {
        if bytes[i..].starts_with(b"/*") {
            depth += 1;
            i += 2;
        } else if bytes[i..].starts_with(b"*/") {
            depth -= 1;
            i += 2;
            if depth == 0 {
                return i;
            }
        } else {
            i += 1;
        }
    }
    i
}

/// The end of a literal that `quote` closes, whose first byte behind the opening one is at `at`.
fn quoted(bytes: &[u8], at: usize, quote: u8) -> usize {
    let mut i = at;
    while i < bytes.len() && bytes[i] != quote {
        i += if bytes[i] == b'\\' { 2 } else { 1 };
    }
    (i + 1).min(bytes.len())
}

/// The end of a raw string whose first `#` or `"` is at `at`, or nothing if none starts there.
fn raw_string(bytes: &[u8], at: usize) -> Option<usize> {
    let hashes = bytes[at..].iter().take_while(|b| **b == b'#').count();
    if bytes.get(at + hashes) != Some(&b'"') {
        return None;
    }
    let mut close = vec![b'"'];
    close.extend(std::iter::repeat_n(b'#', hashes));
    let from = at + hashes + 1;
    let length = bytes[from..]
        .windows(close.len())
        .position(|w| w == close)?;
    Some(from + length + close.len())
}

/// A quote opens a character unless a name follows that no quote closes: then it is a lifetime.
fn quote_or_lifetime(bytes: &[u8], at: usize) -> usize {
    let name = bytes[at + 1..].iter().take_while(|b| is_word(**b)).count();
    if name > 0 && bytes.get(at + 1 + name) != Some(&b'\'') {
        return at + 1 + name;
    }
    quoted(bytes, at + 1, b'\'')
}

/// A word or a number; a number takes its fraction along.
fn word(bytes: &[u8], at: usize) -> usize {
    let mut end = at + bytes[at..].iter().take_while(|b| is_word(**b)).count();
    let fraction =
        bytes.get(end) == Some(&b'.') && bytes.get(end + 1).is_some_and(u8::is_ascii_digit);
    if bytes[at].is_ascii_digit() && fraction {
        end += 1 + bytes[end + 1..].iter().take_while(|b| is_word(**b)).count();
    }
    end
}

fn word_or_prefixed(bytes: &[u8], at: usize) -> usize {
    let end = word(bytes, at);
    match &bytes[at..end] {
        b"r" | b"br" => raw_string(bytes, end).unwrap_or(end),
        b"b" if bytes.get(end) == Some(&b'"') => quoted(bytes, end + 1, b'"'),
        b"b" if bytes.get(end) == Some(&b'\'') => quoted(bytes, end + 1, b'\''),
        _ => end,
    }
}

/// The tokens of `text`. Each mark of punctuation is a token of its own.
pub fn tokens(text: &str) -> Vec<Token> {
    let bytes = text.as_bytes();
    let mut found = Vec::new();
    let mut at = 0;
    while at < bytes.len() {
        if bytes[at].is_ascii_whitespace() {
            at += 1;
            continue;
        }
        if bytes[at..].starts_with(b"//") {
            at = line_comment(bytes, at);
            continue;
        }
        if bytes[at..].starts_with(b"/*") {
            at = block_comment(bytes, at);
            continue;
        }
        let end = match bytes[at] {
            b'"' => quoted(bytes, at + 1, b'"'),
            b'\'' => quote_or_lifetime(bytes, at),
            byte if is_word(byte) => word_or_prefixed(bytes, at),
            _ => at + 1,
        };
        found.push(Token { start: at, end });
        at = end;
    }
    found
}

#[cfg(test)]
mod tests {
    use super::*;

    fn texts(text: &str) -> Vec<&str> {
        tokens(text).iter().map(|t| t.text(text)).collect()
    }

    #[test]
    fn words_numbers_and_marks() {
        assert_eq!(
            texts("let x = 0.5_f64 + y.0.powf(1);"),
            [
                "let", "x", "=", "0.5_f64", "+", "y", ".", "0", ".", "powf", "(", "1", ")", ";"
            ]
        );
    }

    #[test]
    fn comments_are_passed_over() {
        assert_eq!(texts("a // b {\n/* c /* d */ } */ e"), ["a", "e"]);
    }

    #[test]
    fn braces_in_literals_are_no_braces() {
        assert_eq!(
            texts(r##"f("{ \" {", '{', '\'', b"}", r#"" {"#)"##),
            [
                "f",
                "(",
                r#""{ \" {""#,
                ",",
                "'{'",
                ",",
                r"'\''",
                ",",
                r#"b"}""#,
                ",",
                r##"r#"" {"#"##,
                ")"
            ]
        );
    }

    #[test]
    fn lifetimes() {
        assert_eq!(
            texts("&'a T<'static>"),
            ["&", "'a", "T", "<", "'static", ">"]
        );
    }
}
