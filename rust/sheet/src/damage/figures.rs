//! Figures outside their ranges.

use super::{Copy, NOWHERE};
use crate::limits::{LARGEST, MOST, SMALLEST};
use crate::values::{Field, Holds};

/// A number that no figure may be.
fn bad(copy: &mut Copy) -> f64 {
    copy.random.pick_of_both(
        &NOWHERE,
        &[
            SMALLEST.next_down(),
            SMALLEST / 2.0,
            LARGEST.next_up(),
            LARGEST * 2.0,
            -SMALLEST,
            -1.0,
            -LARGEST,
        ],
    )
}

fn put(copy: &mut Copy, field: Field, value: f64) -> bool {
    copy.put(field, &value.to_bits().to_le_bytes())
}

pub fn figure(copy: &mut Copy) -> bool {
    let Some(field) = copy.field_that(Holds::Figure) else {
        return false;
    };
    let value = bad(copy);
    put(copy, field, value)
}

pub fn setting(copy: &mut Copy) -> bool {
    let Some(field) = copy.field_that(Holds::Setting) else {
        return false;
    };
    let value = match copy.random.chance(40) {
        true => copy.random.pick(&[1.0_f64.next_up(), 1.5, 2.0, LARGEST]),
        false => bad(copy),
    };
    put(copy, field, value)
}

/// A count of rows above the largest. All ones are allowed where rows may be unknown.
pub fn whole(copy: &mut Copy) -> bool {
    let Some(field) = copy.field_that(Holds::Whole) else {
        return false;
    };
    let value = match copy.random.chance(45) {
        true => MOST + 1,
        false => copy
            .random
            .pick(&[2 * MOST, 1 << 63, u64::MAX - 1, u64::MAX, MOST]),
    };
    copy.put(field, &value.to_le_bytes())
}

/// A bound that is marked as absent and isn't zero.
pub fn absent(copy: &mut Copy) -> bool {
    let Some(flags) = copy.field_that(Holds::Flags) else {
        return false;
    };
    // The flags stand before the value, the lower and the upper bound.
    let upper = copy.random.below(2);
    let at = flags.at + 9 + 8 * upper;
    let flag = 1 << upper;
    if copy.bytes[flags.at] & flag != 0 {
        let zero = copy.bytes[at..at + 8] == [0; 8];
        if !zero {
            copy.bytes[flags.at] ^= flag;
        }
        return !zero;
    }
    let value = match copy.random.chance(50) {
        true => copy.random.pick(&[1.0, SMALLEST, 7.5]),
        false => bad(copy),
    };
    copy.bytes[at..at + 8].copy_from_slice(&value.to_bits().to_le_bytes());
    true
}
