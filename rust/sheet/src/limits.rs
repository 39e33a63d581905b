//! The limits of a sheet's counts, numbers and figures, as document 01 has them.

use crate::values::Section;
use std::ops::RangeInclusive;

/// The most bytes that a sheet may have.
pub const LONGEST: usize = 65_535;
/// The most items of one sketch, and of all sketches together.
pub const SKETCH_ITEMS: usize = 64;
pub const ALL_ITEMS: usize = 512;
/// The fewest and the most columns of a class.
pub const CLASS_COLUMNS: RangeInclusive<usize> = 2..=128;
/// Columns have the numbers below this one.
pub const COLUMNS: u16 = 128;
/// The largest whole figure.
pub const MOST: u64 = 1 << 53;
/// The smallest figure above 0 and the largest, of an estimate and of the last two settings.
pub const SMALLEST: f64 = power_of_two(-64);
pub const LARGEST: f64 = power_of_two(64);
/// The smallest size of a Float64 scalar that is not 0, and the largest.
pub const SMALLEST_FLOAT: f64 = power_of_two(-400);
pub const LARGEST_FLOAT: f64 = power_of_two(400);
/// Stands for "none" in a field of 16 bits that may be without a number.
pub const NONE: u16 = u16::MAX;

/// Two to a power from -1022 to 1023.
const fn power_of_two(exponent: i32) -> f64 {
    f64::from_bits(((1023 + exponent) as u64) << 52)
}

/// How many records a section may have.
pub fn counts(section: Section) -> RangeInclusive<usize> {
    match section {
        Section::Rows => 2..=2,
        Section::Settings => 5..=5,
        Section::Sketches => 0..=16,
        Section::Tables | Section::Keys => 0..=64,
        Section::LeftColumns | Section::RightColumns => 0..=64,
        Section::LeftClasses | Section::RightClasses => 0..=32,
        Section::Expressions => 0..=256,
        Section::Operands => 0..=512,
        Section::Conjuncts => 0..=64,
    }
}

/// The most records that a section may have.
pub fn most(section: Section) -> usize {
    *counts(section).end()
}
