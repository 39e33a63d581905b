//! Sheets that grow in one thing at a time.

use crate::sheets::{equate, operands_of_one, sketch, with_columns};
use crate::sides::Question;
use sheet::values::Sheet;

/// A sheet of each size, and what is asked of it.
pub struct Series {
    pub what: &'static str,
    pub sheets: Vec<(u16, Sheet, Question)>,
}

pub fn all() -> Vec<Series> {
    vec![columns(), conjuncts(), operands(), items()]
}

/// Columns a side, with one equality.
fn columns() -> Series {
    let sheet = |count| {
        let mut sheet = with_columns(count);
        equate(&mut sheet, count - 1);
        (count, sheet, Question::Join)
    };
    Series {
        what: "columns a side",
        sheets: [1, 2, 4, 8, 16, 32, 64].map(sheet).into(),
    }
}

/// Equalities of different columns, 64 columns a side.
fn conjuncts() -> Series {
    let sheet = |count| {
        let mut sheet = with_columns(64);
        (0..count).for_each(|place| equate(&mut sheet, place));
        (count, sheet, Question::Join)
    };
    Series {
        what: "equalities",
        sheets: [0, 1, 2, 4, 8, 16, 32, 64].map(sheet).into(),
    }
}

/// Operands of one Or as a predicate, 8 columns a side.
fn operands() -> Series {
    let sheet = |count| {
        let (sheet, or) = operands_of_one(count);
        (count, sheet, Question::Predicate(or))
    };
    Series {
        what: "operands",
        sheets: [1, 8, 64, 128, 256, 512].map(sheet).into(),
    }
}

/// Items of each of two sketches whose columns are equated.
fn items() -> Series {
    let sheet = |count| {
        let mut sheet = with_columns(2);
        sheet.sketches = vec![sketch(i64::from(count)); 2];
        sheet.columns[0][0].sketch = Some(0);
        sheet.columns[1][0].sketch = Some(1);
        equate(&mut sheet, 0);
        (count, sheet, Question::Join)
    };
    Series {
        what: "items a sketch",
        sheets: [1, 2, 4, 8, 16, 32, 64].map(sheet).into(),
    }
}
