//! Why a call is refused: the twelve numbers of document 01.

use std::error::Error;
use std::fmt;

/// The rule that a refused call breaks first, one case for each row of document 01's table ("Where
/// a sheet is turned back"). The output of a refused call is as it was.
#[derive(Debug, Clone, Copy, PartialEq, Eq, Hash)]
#[repr(u8)]
pub enum Refusal {
    /// 1: the sheet has more than 65,535 bytes.
    SheetTooLong = 1,
    /// 2: the sheet stops inside a count or a record.
    SheetEndsInside = 2,
    /// 3: a count, or the n of a sketch or a class, is not within its limit.
    CountOutsideLimit = 3,
    /// 4: a figure is not within its range.
    FigureOutsideRange = 4,
    /// 5: a scalar's bytes are none that a scalar may have there.
    BadScalar = 5,
    /// 6: a code is unknown, or an unused field is not zero, or not FFFF, as it has to be.
    BadCode = 6,
    /// 7: a column or a table is not above the one before it, a column is 128 or more, or a sketch
    /// holds a value twice.
    BadOrder = 7,
    /// 8: a sketch, child, operand or conjunct names nothing in the sheet, or a child is not below
    /// its parent.
    NamesNoRecord = 8,
    /// 9: a run of operands does not start where the last one ended, the runs do not fill their
    /// section, or an And or Or is an operand twice.
    BadOperandRun = 9,
    /// 10: bytes stand behind the last section.
    BytesLeftOver = 10,
    /// 11: the sheet has no expression of the number that the caller named.
    NoSuchExpression = 11,
    /// 12: the output has too few bytes for the answer.
    OutputTooShort = 12,
}

impl Refusal {
    /// All refusals, in the order of their numbers.
    pub const ALL: [Refusal; 12] = [
        Refusal::SheetTooLong,
        Refusal::SheetEndsInside,
        Refusal::CountOutsideLimit,
        Refusal::FigureOutsideRange,
        Refusal::BadScalar,
        Refusal::BadCode,
        Refusal::BadOrder,
        Refusal::NamesNoRecord,
        Refusal::BadOperandRun,
        Refusal::BytesLeftOver,
        Refusal::NoSuchExpression,
        Refusal::OutputTooShort,
    ];

    /// Its number in document 01, from 1 to 12.
    pub fn number(self) -> u8 {
        self as u8
    }

    /// The refusal of a number, or none where no refusal has it.
    pub fn from_number(number: u8) -> Option<Refusal> {
        Refusal::ALL
            .into_iter()
            .find(|refusal| refusal.number() == number)
    }

    /// The row of document 01's table in other words: its place, and when it is given.
    fn row(self) -> (&'static str, &'static str) {
        match self {
            Refusal::SheetTooLong => ("length", "the sheet has more than 65,535 bytes"),
            Refusal::SheetEndsInside => (
                "count, record",
                "the sheet stops before a count or a record is complete",
            ),
            Refusal::CountOutsideLimit => (
                "count, n",
                "a section's count, or the n of a sketch or a class, is not within its limit",
            ),
            Refusal::FigureOutsideRange => ("figure", "a figure is not within its range"),
            Refusal::BadScalar => (
                "scalar",
                "the 19 bytes of a scalar are none that a scalar may have there",
            ),
            Refusal::BadCode => (
                "code, unused field",
                "a code is unknown, or a field that has to be zero or hex FFFF is something else",
            ),
            Refusal::BadOrder => (
                "column, table, value",
                "a column or table is not above the one before it, a column is not below 128, \
                 or a sketch holds the same value twice",
            ),
            Refusal::NamesNoRecord => (
                "sketch, child, operand, conjunct",
                "a number stands for nothing in the sheet, or an expression's child is not \
                 smaller than the expression",
            ),
            Refusal::BadOperandRun => (
                "operand run",
                "a run does not start where the one before it ended, the runs leave part of the \
                 operands section over or need more, or an And or Or is an operand twice",
            ),
            Refusal::BytesLeftOver => ("sheet's end", "bytes stand behind the last section"),
            Refusal::NoSuchExpression => (
                "expression named by the caller",
                "the sheet has no expression of this number",
            ),
            Refusal::OutputTooShort => (
                "output",
                "the output that was lent has too few bytes for the answer",
            ),
        }
    }
}

impl fmt::Display for Refusal {
    fn fmt(&self, f: &mut fmt::Formatter) -> fmt::Result {
        let (place, when) = self.row();
        write!(f, "refusal {} ({place}): {when}", self.number())
    }
}

impl Error for Refusal {}

#[cfg(test)]
mod tests {
    use super::*;

    #[test]
    fn numbers_go_from_1_to_12() {
        let numbers = Refusal::ALL.map(Refusal::number);
        assert_eq!(numbers, [1, 2, 3, 4, 5, 6, 7, 8, 9, 10, 11, 12]);
    }

    #[test]
    fn each_number_gives_its_refusal_and_others_none() {
        for refusal in Refusal::ALL {
            assert_eq!(Refusal::from_number(refusal.number()), Some(refusal));
        }
        for number in (13..=u8::MAX).chain([0]) {
            assert_eq!(Refusal::from_number(number), None, "{number}");
        }
    }

    /// The places of document 01's table, first row to last.
    const PLACES: [&str; 12] = [
        "length",
        "count, record",
        "count, n",
        "figure",
        "scalar",
        "code, unused field",
        "column, table, value",
        "sketch, child, operand, conjunct",
        "operand run",
        "sheet's end",
        "expression named by the caller",
        "output",
    ];

    #[test]
    fn a_message_starts_with_the_number_and_the_place() {
        for (number, place) in (1..).zip(PLACES) {
            let message = Refusal::from_number(number).unwrap().to_string();
            let when = message.strip_prefix(&format!("refusal {number} ({place}): "));
            assert!(when.is_some_and(|when| when.len() > 20), "{message}");
        }
    }

    #[test]
    fn no_two_messages_say_the_same() {
        let mut whens = Refusal::ALL.map(|refusal| refusal.row().1).to_vec();
        whens.sort();
        whens.dedup();
        assert_eq!(whens.len(), 12);
    }
}
