//! Reads a text: its sections in their order, and their records.

use super::error::{TextError, one_of, quoted};
use super::lines::Lines;
use super::names::{AFTER_ROWS, SETTINGS, heading};
use super::records;
use super::words::{Line, Words};
use crate::values::{DEFAULT_SETTINGS, Estimate, Expression, Section, Sheet, Sketch};

type Taken<T> = Result<T, TextError>;

/// A sheet, and the lines that its records stood on.
#[derive(Debug, Clone, PartialEq)]
pub struct Parsed {
    pub sheet: Sheet,
    pub lines: Lines,
}

/// The sheet of a text, or the text's first mistake.
pub fn parse(text: &str) -> Taken<Sheet> {
    read(text).map(|parsed| parsed.sheet)
}

/// As [`parse`], with the lines.
pub fn read(text: &str) -> Taken<Parsed> {
    let lines = Line::all(text);
    let mut reader = Reader {
        left: &lines,
        end: text.lines().count() + 1,
        noted: Lines::default(),
    };
    let sheet = reader.sheet()?;
    Ok(Parsed {
        sheet,
        lines: reader.noted,
    })
}

/// The lines that are left, and the number of the one behind the last.
struct Reader<'a> {
    left: &'a [Line<'a>],
    end: usize,
    noted: Lines,
}

impl<'a> Reader<'a> {
    fn sheet(&mut self) -> Taken<Sheet> {
        let mut sheet = self.first_section()?;
        let mut rest = &AFTER_ROWS[..];
        while let Some(section) = self.next_section(rest)? {
            self.section(section, &mut sheet)?;
            rest = &AFTER_ROWS[place(section)..];
        }
        Ok(sheet)
    }

    /// A sheet with its rows, the default settings and nothing else.
    fn first_section(&mut self) -> Taken<Sheet> {
        let expected = quoted(&heading(Section::Rows));
        let Some(Section::Rows) = self.heading(&[Section::Rows]) else {
            return Err(self.error(expected));
        };
        Ok(Sheet::bare(self.rows()?, DEFAULT_SETTINGS))
    }

    /// The mistake that something else stands on the next line, or that there is none.
    fn error(&self, expected: String) -> TextError {
        let next = self.left.first();
        TextError {
            line: next.map_or(self.end, |line| line.number),
            expected,
            found: next.map_or("the end of the text".into(), |line| quoted(&line.content())),
        }
    }

    /// Takes the heading of one of the sections, if it is next.
    fn heading(&mut self, of: &[Section]) -> Option<Section> {
        let line = self.left.first()?;
        let content = line.content();
        let section = *of.iter().find(|section| heading(**section) == content)?;
        self.noted.heading(section, line.number);
        self.left = &self.left[1..];
        Some(section)
    }

    /// The section that comes next, or none at the text's end.
    fn next_section(&mut self, of: &[Section]) -> Taken<Option<Section>> {
        if self.left.is_empty() {
            return Ok(None);
        }
        if let Some(section) = self.heading(of) {
            return Ok(Some(section));
        }
        let headings = of.iter().map(|section| quoted(&heading(*section)));
        let end = ["the end of the text".to_string()];
        let all: Vec<_> = headings.chain(end).collect();
        Err(self.error(one_of(&all)))
    }

    fn section(&mut self, section: Section, sheet: &mut Sheet) -> Taken<()> {
        match section {
            Section::Settings => sheet.settings = self.settings()?,
            Section::Sketches => sheet.sketches = self.sketches()?,
            Section::Tables => sheet.tables = self.records(section, records::table)?,
            Section::Keys => sheet.keys = self.records(section, records::key)?,
            Section::LeftColumns => sheet.columns[0] = self.records(section, records::column)?,
            Section::RightColumns => sheet.columns[1] = self.records(section, records::column)?,
            Section::LeftClasses => sheet.classes[0] = self.records(section, records::class)?,
            Section::RightClasses => sheet.classes[1] = self.records(section, records::class)?,
            Section::Conjuncts => {
                sheet.conjuncts = self.records(section, records::expression_number)?
            }
            Section::Expressions => {
                (sheet.expressions, sheet.operands) = self.expressions()?;
            }
            // No heading of these is taken here.
            Section::Rows | Section::Operands => {}
        }
        Ok(())
    }

    /// The next line, if it is no heading.
    fn record_line(&mut self) -> Option<&'a Line<'a>> {
        let (line, left) = self.left.split_first()?;
        if line.is_heading() {
            return None;
        }
        self.left = left;
        Some(line)
    }

    /// The records up to the next heading.
    fn records<T>(
        &mut self,
        section: Section,
        mut each: impl FnMut(&mut Words) -> Taken<T>,
    ) -> Taken<Vec<T>> {
        let mut records = Vec::new();
        while let Some(line) = self.record_line() {
            self.noted.record(section, records.len(), line.number);
            records.push(whole(line, &mut each)?);
        }
        Ok(records)
    }

    /// A record that begins with a word of its own and has to be there.
    fn fixed<T>(
        &mut self,
        section: Section,
        number: usize,
        word: &str,
        each: impl FnOnce(&mut Words<'a>) -> Taken<T>,
    ) -> Taken<T> {
        let Some(line) = self.record_line() else {
            return Err(self.error(quoted(word)));
        };
        self.noted.record(section, number, line.number);
        whole(line, |words| {
            words.keyword(word)?;
            each(words)
        })
    }

    fn rows(&mut self) -> Taken<[Estimate; 2]> {
        Ok([
            self.fixed(Section::Rows, 0, "left", records::estimate)?,
            self.fixed(Section::Rows, 1, "right", records::estimate)?,
        ])
    }

    fn settings(&mut self) -> Taken<[f64; 5]> {
        let mut settings = DEFAULT_SETTINGS;
        for (number, setting) in settings.iter_mut().enumerate() {
            let name = SETTINGS[number];
            *setting = self.fixed(Section::Settings, number, name, Words::float)?;
        }
        Ok(settings)
    }

    fn sketches(&mut self) -> Taken<Vec<Sketch>> {
        let mut sketches = Vec::new();
        while let Some(line) = self.record_line() {
            whole(line, |words| {
                self.sketch_line(words, line.number, &mut sketches)
            })?;
        }
        Ok(sketches)
    }

    /// The head of the next sketch, or an item of the last one.
    fn sketch_line(
        &mut self,
        words: &mut Words,
        line: usize,
        sketches: &mut Vec<Sketch>,
    ) -> Taken<()> {
        let number = sketches.len();
        if let Some(sketch) = sketches.last_mut()
            && words.accepts("item")
        {
            let item = sketch.items.len();
            self.noted.item(Section::Sketches, number - 1, item, line);
            sketch.items.push(records::sketch_item(words)?);
            return Ok(());
        }
        own_number(words, number)?;
        words.keyword("population")?;
        self.noted.record(Section::Sketches, number, line);
        sketches.push(Sketch {
            population: words.u64()?,
            items: Vec::new(),
        });
        Ok(())
    }

    /// The expressions, and the operands of all of them.
    fn expressions(&mut self) -> Taken<(Vec<Expression>, Vec<u16>)> {
        let mut expressions = Vec::new();
        let mut operands = Vec::new();
        if let Some(line) = self.noted.line(Section::Expressions, None, None) {
            self.noted.heading(Section::Operands, line);
        }
        while let Some(line) = self.record_line() {
            let (number, first) = (expressions.len(), operands.len());
            self.noted.record(Section::Expressions, number, line.number);
            expressions.push(whole(line, |words| {
                own_number(words, number)?;
                records::expression(words, &mut operands)
            })?);
            for operand in first..operands.len() {
                self.noted.record(Section::Operands, operand, line.number);
            }
        }
        Ok((expressions, operands))
    }
}

/// Where the sections behind this one begin in the list of those behind the rows.
fn place(section: Section) -> usize {
    let before = AFTER_ROWS.iter().take_while(|other| **other <= section);
    before.count()
}

/// A record with nothing behind it on its line.
fn whole<'a, T>(line: &'a Line<'a>, each: impl FnOnce(&mut Words<'a>) -> Taken<T>) -> Taken<T> {
    let mut words = line.words();
    let record = each(&mut words)?;
    words.end()?;
    Ok(record)
}

/// The number of a record that tells its own.
fn own_number(words: &mut Words, number: usize) -> Taken<()> {
    words.keyword(&format!("{number}:"))
}
