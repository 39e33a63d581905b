//! A text's lines as words, taken from left to right.

use super::error::{TextError, one_of, quoted};
use super::numbers;

/// A line that has words, without its comment.
pub(super) struct Line<'a> {
    pub(super) number: usize,
    words: Vec<&'a str>,
}

impl<'a> Line<'a> {
    /// The lines of a text that have words.
    pub(super) fn all(text: &'a str) -> Vec<Line<'a>> {
        text.lines()
            .zip(1..)
            .map(|(line, number)| Line::new(line, number))
            .filter(|line| !line.words.is_empty())
            .collect()
    }

    fn new(line: &'a str, number: usize) -> Self {
        let content = line.split('#').next().unwrap_or(line);
        let words = content.split_whitespace().collect();
        Line { number, words }
    }

    pub(super) fn is_heading(&self) -> bool {
        self.words[0].starts_with('[')
    }

    /// The words with one blank between them.
    pub(super) fn content(&self) -> String {
        self.words.join(" ")
    }

    pub(super) fn words(&self) -> Words<'_> {
        Words {
            line: self.number,
            rest: &self.words,
            passed: Vec::new(),
        }
    }
}

/// What is left of a line. `passed` are the words that could have stood here and do not.
pub(super) struct Words<'a> {
    line: usize,
    rest: &'a [&'a str],
    passed: Vec<String>,
}

impl Words<'_> {
    /// The mistake that something else stands here, or nothing.
    pub(super) fn error(&self, expected: impl Into<String>) -> TextError {
        let mut all = self.passed.clone();
        all.push(expected.into());
        let found = self.rest.first();
        TextError {
            line: self.line,
            expected: one_of(&all),
            found: found.map_or("the end of the line".into(), |word| quoted(word)),
        }
    }

    fn step(&mut self) {
        self.rest = &self.rest[1..];
        self.passed.clear();
    }

    pub(super) fn is_empty(&self) -> bool {
        self.rest.is_empty()
    }

    /// Takes the word if it stands here.
    pub(super) fn accepts(&mut self, word: &str) -> bool {
        let stands = self.rest.first() == Some(&word);
        match stands {
            true => self.step(),
            false => self.passed.push(quoted(word)),
        }
        stands
    }

    pub(super) fn keyword(&mut self, word: &str) -> Result<(), TextError> {
        if self.rest.first() != Some(&word) {
            return Err(self.error(quoted(word)));
        }
        self.step();
        Ok(())
    }

    /// A word that `parse` makes something of.
    pub(super) fn parsed<T>(
        &mut self,
        expected: &str,
        parse: impl FnOnce(&str) -> Option<T>,
    ) -> Result<T, TextError> {
        let parsed = self.rest.first().and_then(|word| parse(word));
        let value = parsed.ok_or_else(|| self.error(expected))?;
        self.step();
        Ok(value)
    }

    /// The place of one of the names.
    pub(super) fn name(&mut self, names: &[&str]) -> Result<usize, TextError> {
        let expected: Vec<_> = names.iter().map(|name| quoted(name)).collect();
        self.parsed(&one_of(&expected), |word| {
            names.iter().position(|name| *name == word)
        })
    }

    /// A number of 16 bits.
    pub(super) fn u16(&mut self, what: &str) -> Result<u16, TextError> {
        let expected = format!("{what} number up to 65535");
        self.parsed(&expected, |word| numbers::whole(word, u16::MAX))
    }

    /// A number of 16 bits where the last one means "none".
    pub(super) fn below_none(&mut self, what: &str) -> Result<u16, TextError> {
        let expected = format!("{what} number below 65535");
        self.parsed(&expected, |word| numbers::whole(word, u16::MAX - 1))
    }

    pub(super) fn u64(&mut self) -> Result<u64, TextError> {
        let expected = "a whole number up to 18446744073709551615";
        self.parsed(expected, |word| numbers::whole(word, u64::MAX))
    }

    pub(super) fn u8(&mut self) -> Result<u8, TextError> {
        let expected = "a whole number up to 255";
        self.parsed(expected, |word| numbers::whole(word, u8::MAX))
    }

    pub(super) fn i32(&mut self) -> Result<i32, TextError> {
        let expected = "a whole number from -2147483648 to 2147483647";
        self.parsed(expected, numbers::signed)
    }

    pub(super) fn i64(&mut self) -> Result<i64, TextError> {
        let expected = "a whole number from -9223372036854775808 to 9223372036854775807";
        self.parsed(expected, numbers::signed)
    }

    pub(super) fn float(&mut self) -> Result<f64, TextError> {
        self.parsed("a number that a float can hold", numbers::float)
    }

    /// Nothing stands behind the record.
    pub(super) fn end(&mut self) -> Result<(), TextError> {
        match self.rest {
            [] => Ok(()),
            _ => Err(self.error("the end of the line")),
        }
    }
}
