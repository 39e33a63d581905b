//! The two sides of a call: the proved library, and the source behind a reader of its own. Each
//! takes a sheet's bytes and leaves the answer's bytes in an output that nothing clears.

use sheet::answers::{predicate_bytes, split_bytes};

/// One of the three questions, about an expression where it needs one.
#[derive(Debug, Clone, Copy)]
pub enum Question {
    Join,
    Predicate(u16),
    Split(u16),
}

#[derive(Debug, Clone, Copy, PartialEq, Eq)]
pub enum Side {
    Library,
    Source,
}

/// A sheet's bytes, what is asked of them, and the output.
pub struct Call {
    pub sheet: Vec<u8>,
    pub question: Question,
    pub out: Vec<u8>,
}

impl Call {
    pub fn new(sheet: Vec<u8>, question: Question) -> Self {
        Call {
            sheet,
            question,
            out: vec![0; estimates::LONGEST_JOIN],
        }
    }

    /// The answer's length.
    pub fn run(&mut self, side: Side) -> usize {
        match side {
            Side::Library => self.library(),
            Side::Source => self.source(),
        }
    }

    fn library(&mut self) -> usize {
        let out = &mut self.out;
        match self.question {
            Question::Join => estimates::join_bytes(&self.sheet, out),
            Question::Predicate(number) => estimates::predicate_bytes(&self.sheet, number, out),
            Question::Split(number) => estimates::split_bytes(&self.sheet, number, out),
        }
        .expect("the sheet is accepted")
    }

    /// Reads the sheet, makes the source's values of it, asks the source and writes the answer.
    fn source(&mut self) -> usize {
        let read = sheet::reader::read(&self.sheet).expect("the sheet is accepted");
        let loaded = oracle::analysis::load(&read.sheet);
        let answer = match self.question {
            Question::Join => loaded.join().bytes(),
            Question::Predicate(number) => predicate_bytes(&loaded.predicate(number)),
            Question::Split(number) => split_bytes(&loaded.split(number)),
        };
        self.out[..answer.len()].copy_from_slice(&answer);
        answer.len()
    }
}

/// The source's own part: the values are made once, and no answer is written.
pub fn source_alone(loaded: &oracle::analysis::Loaded, question: Question) -> f64 {
    match question {
        Question::Join => loaded.join().matching.value,
        Question::Predicate(number) => loaded.predicate(number).value,
        Question::Split(number) => loaded.split(number).len() as f64,
    }
}
