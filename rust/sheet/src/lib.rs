//! A join sheet: its values, its bytes read and written, and sheets drawn by seed. The answers on
//! it: their values, and their bytes read and written.

pub mod answers;
pub mod damage;
pub mod generator;
pub mod limits;
pub mod random;
pub mod reader;
pub mod samples;
pub mod text;
pub mod values;
pub mod worked;
pub mod writer;
