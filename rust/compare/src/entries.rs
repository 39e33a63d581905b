//! The library's entries: the join, and the others on every expression of a sheet and on one that is
//! not there.

use crate::outputs::{agree, refused};
use crate::report::Report;
use estimates::Refusal;
use oracle::answer::{Answers, Join, predicate_bytes, split_bytes};

const NO_EXPRESSION: Result<usize, Refusal> = Err(Refusal::NoSuchExpression);

/// Whether an entry gives these bytes, and 12 where there is no room for them.
fn answers(expected: &[u8], call: impl Fn(&mut [u8]) -> Result<usize, Refusal>) -> bool {
    let no_room = Err(Refusal::OutputTooShort);
    agree(expected, Ok(expected.len()), no_room, call)
}

/// The join's bytes against those of the source with document 01's power.
pub fn compare_join(bytes: &[u8], join: &Join, report: &mut Report) {
    let agrees = answers(&join.bytes(), |out| estimates::join_bytes(bytes, out));
    report.compared("a join", agrees);
}

/// The other entries' bytes against the source's answers, and 11 for the numbers behind the last.
pub fn compare(bytes: &[u8], due: &Answers, report: &mut Report) {
    let count = due.predicates.len() as u16;
    for (number, (predicate, split)) in due.predicates.iter().zip(&due.splits).enumerate() {
        let number = number as u16;
        let agrees = answers(&predicate_bytes(predicate), |out| {
            estimates::predicate_bytes(bytes, number, out)
        });
        report.compared("a predicate", agrees);
        let agrees = answers(&split_bytes(split), |out| {
            estimates::split_bytes(bytes, number, out)
        });
        report.compared("a split", agrees);
    }
    for number in [count, u16::MAX] {
        let predicate = refused(NO_EXPRESSION, |out| {
            estimates::predicate_bytes(bytes, number, out)
        });
        report.compared("a predicate of no expression: 11", predicate);
        let split = refused(NO_EXPRESSION, |out| {
            estimates::split_bytes(bytes, number, out)
        });
        report.compared("a split of no expression: 11", split);
    }
}

/// A refused sheet gets its number from all entries, whichever expression is named.
pub fn compare_refused(bytes: &[u8], number: u8, report: &mut Report) {
    let numbered = |answer: Result<usize, Refusal>| answer.map_err(Refusal::number);
    let join = refused(Err(number), |out| {
        numbered(estimates::join_bytes(bytes, out))
    });
    report.compared("a join of a refused copy", join);
    for expression in [0, u16::MAX] {
        let predicate = refused(Err(number), |out| {
            numbered(estimates::predicate_bytes(bytes, expression, out))
        });
        report.compared("a predicate of a refused copy", predicate);
        let split = refused(Err(number), |out| {
            numbered(estimates::split_bytes(bytes, expression, out))
        });
        report.compared("a split of a refused copy", split);
    }
}
