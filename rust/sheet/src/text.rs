//! The text form of a sheet: one record a line, for people to read and to write.
//!
//! ```text
//! text       = '[rows]' rows, then sections, each at most once and in the sheet's order
//! section    = '[' name ']', then its records; an empty section may be left out
//! rows       = left ESTIMATE / right ESTIMATE
//! settings   = all five, each its name and a FIGURE; left out: the source's defaults
//! sketches   = K: population N / then its items: item SCALAR lower N error N
//! tables     = table N rows N|unknown
//! keys       = unique table N name N
//!            | foreign table N name N references table N name N
//! columns    = column N [base table N name N] [lower SCALAR] [upper SCALAR]
//!              frequency ESTIMATE distinct ESTIMATE [sketch N]
//! classes    = distinct ESTIMATE columns N N ...
//! expressions = K: literal SCALAR | column N | UNARY N | BINARY N N | and|or N N ... | like | other
//! conjuncts  = N
//! ESTIMATE   = exact|catalog|sketch|derived|default FIGURE [lower FIGURE] [upper FIGURE]
//! ```
//!
//! Every `/` above ends a line. K is the record's own number, and a text with another one is
//! refused. Words stand apart by blanks; a comment goes from `#` to the end of its line, and lines
//! without words count for nothing. The operands have no section of their own: they stand behind
//! their `and` or `or`, and a sheet's runs follow from that. `docs/TEXT.md` shows each record once.
//!
//! Reading keeps the grammar and the sizes of numbers alone. Whether the sheet keeps the rules of
//! document 01 is for [`crate::reader`] to say, and [`Lines`] tells which line it speaks of.

mod error;
mod lines;
mod names;
mod numbers;
mod print;
mod read;
mod records;
mod words;

pub use error::TextError;
pub use lines::Lines;
pub use names::{COVERAGE_FIGURES, section_name};
pub use print::{estimate, expression, number, print, source_name};
pub use read::{Parsed, parse, read};
