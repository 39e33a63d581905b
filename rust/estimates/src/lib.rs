//! Join and predicate estimates from the bytes of a join sheet: the proved library, called safely.
//!
//! Each of three answers comes as a value ([`join`], [`predicate`], [`split`]) or as document 01's
//! bytes in an output that the caller lends ([`join_bytes`], [`predicate_bytes`],
//! [`split_bytes`]). A refused call says by a [`Refusal`] which rule is broken first, and leaves
//! the output as it was. What the library answers and each byte that it leaves is proved for all
//! inputs; this crate adds the call and the reading of the answer's bytes.
//!
//! Building it needs `target/staticlib/libestimates.a` of the repository, which
//! `rust/libraries estimates` builds, and x86-64. `include/estimates.h` declares the same functions
//! for C and C++.
//!
//! # A join
//!
//! Column 1 of 100 left rows has 10 distinct values, column 2 of 50 right rows has 25, and the
//! join asks that they are equal. `sheet::writer` makes the bytes of the sheet:
//!
//! ```
//! use sheet::values::{Column, Estimate, Expression, Sheet};
//!
//! let figure = |value| Estimate { source: 1, value, lower: None, upper: None };
//! let profile = |column, frequency, distinct| Column {
//!     column,
//!     base: None,
//!     lower: None,
//!     upper: None,
//!     frequency: figure(frequency),
//!     distinct: figure(distinct),
//!     sketch: None,
//! };
//! let bytes = sheet::writer::write(&Sheet {
//!     rows: [figure(100.0), figure(50.0)],
//!     settings: [0.1, 0.25, 0.33, 1000.0, 100.0],
//!     sketches: vec![],
//!     tables: vec![],
//!     keys: vec![],
//!     columns: [vec![profile(1, 100.0, 10.0)], vec![profile(2, 50.0, 25.0)]],
//!     classes: [vec![], vec![]],
//!     expressions: vec![
//!         Expression::Column(1),
//!         Expression::Column(2),
//!         Expression::Binary { op: 0, left: 0, right: 1 },
//!     ],
//!     operands: vec![],
//!     conjuncts: vec![2],
//! });
//!
//! let join = estimates::join(&bytes)?;
//! assert_eq!(join.selectivity.value, 0.04);
//! assert_eq!(join.matching.value, 1.0);
//! assert_eq!(join.classes.len(), 1);
//! assert_eq!(join.classes[0].columns, [1, 2]);
//! assert_eq!(join.classes[0].distinct.value, 10.0);
//! assert_eq!(join.non_null, [1, 2]);
//!
//! // The same equality as a predicate, and its only conjunct.
//! assert_eq!(estimates::predicate(&bytes, 2)?.value, 0.04);
//! assert_eq!(estimates::split(&bytes, 2)?, [2]);
//! # Ok::<(), estimates::Refusal>(())
//! ```
//!
//! # A refusal
//!
//! ```
//! use estimates::Refusal;
//!
//! // A sheet whose first byte is all there is ends inside its first count.
//! let refusal = estimates::join(&[2]).unwrap_err();
//! assert_eq!(refusal, Refusal::SheetEndsInside);
//! assert_eq!(refusal.number(), 2);
//! assert_eq!(
//!     refusal.to_string(),
//!     "refusal 2 (count, record): the sheet stops before a count or a record is complete"
//! );
//!
//! // Into a lent output: nothing of it changes.
//! let mut out = [7; 100];
//! assert_eq!(estimates::join_bytes(&[2], &mut out), Err(Refusal::SheetEndsInside));
//! assert_eq!(out, [7; 100]);
//! ```
//!
//! At which byte a sheet is refused, `sheet::reader::read` tells.

mod library;
mod refusal;

pub use refusal::Refusal;
pub use sheet::answers::{Coverage, Join};
pub use sheet::values::{Class, Estimate};

use sheet::answers::read_split;

/// No join's answer has more bytes than this, so a [`join_bytes`] into so many is never refused
/// with 12.
///
/// It is the bound that `join_within` proves (`crates/join_answer/proofs/BoundLaws.antt` of the
/// repository), and there are sheets whose answer has so many.
pub const LONGEST_JOIN: usize = 5_124;

/// Every predicate's answer has so many bytes: one estimate.
pub const LONGEST_PREDICATE: usize = 26;

/// No split's answer has more bytes than this: a count, and at most 512 conjuncts of two bytes
/// each, as `accepted_split` proves (`crates/split_range/proofs/SplitRangeLaws.antt` of the
/// repository).
pub const LONGEST_SPLIT: usize = 2 + 2 * 512;

/// The figures, classes, coverages and non-null columns of a sheet's join.
///
/// # Errors
///
/// The sheet's own refusals, 1 to 10.
///
/// # Panics
///
/// Never with the library that the repository proves: its answers are document 01's.
pub fn join(sheet: &[u8]) -> Result<Join, Refusal> {
    let mut out = vec![0; LONGEST_JOIN];
    let length = join_bytes(sheet, &mut out)?;
    Ok(whole(Join::read(&out[..length]), "join"))
}

/// The estimate of an expression of the sheet as a predicate.
///
/// # Errors
///
/// The sheet's own refusals, 1 to 10; then 11 where the sheet has no expression of this number.
///
/// # Panics
///
/// Never with the library that the repository proves: its answers are document 01's.
pub fn predicate(sheet: &[u8], expression: u16) -> Result<Estimate, Refusal> {
    let mut out = [0; LONGEST_PREDICATE];
    let length = predicate_bytes(sheet, expression, &mut out)?;
    Ok(whole(Estimate::read(&out[..length]), "predicate"))
}

/// The conjuncts of an expression of the sheet, by their numbers. A nested And is taken apart.
///
/// # Errors
///
/// The sheet's own refusals, 1 to 10; then 11 where the sheet has no expression of this number.
///
/// # Panics
///
/// Never with the library that the repository proves: its answers are document 01's.
pub fn split(sheet: &[u8], expression: u16) -> Result<Vec<u16>, Refusal> {
    let mut out = [0; LONGEST_SPLIT];
    let length = split_bytes(sheet, expression, &mut out)?;
    Ok(whole(read_split(&out[..length]), "split"))
}

/// Writes the answer of [`join`] to the front of `out` and gives its length. The bytes behind it
/// are as they were.
///
/// # Errors
///
/// The sheet's own refusals, 1 to 10; then 12 where `out` is shorter than the answer. All of `out`
/// is as it was.
pub fn join_bytes(sheet: &[u8], out: &mut [u8]) -> Result<usize, Refusal> {
    library::join(sheet, out)
}

/// Writes the answer of [`predicate`] to the front of `out` and gives its length. The bytes behind
/// it are as they were.
///
/// # Errors
///
/// The sheet's own refusals, 1 to 10; then 11 where the sheet has no expression of this number;
/// then 12 where `out` is shorter than the answer. All of `out` is as it was.
pub fn predicate_bytes(sheet: &[u8], expression: u16, out: &mut [u8]) -> Result<usize, Refusal> {
    library::predicate(sheet, expression, out)
}

/// Writes the answer of [`split`] to the front of `out` and gives its length. The bytes behind it
/// are as they were.
///
/// # Errors
///
/// As those of [`predicate_bytes`].
pub fn split_bytes(sheet: &[u8], expression: u16, out: &mut [u8]) -> Result<usize, Refusal> {
    library::split(sheet, expression, out)
}

/// What was read from an answer's bytes. Other bytes are not the proved library's.
fn whole<T>(read: Option<T>, answer: &str) -> T {
    read.unwrap_or_else(|| panic!("libestimates.a wrote what is no answer of a {answer}"))
}
