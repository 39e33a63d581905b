//! Sheets cut short or made longer, and bytes changed anywhere.

use super::Copy;
use crate::limits::LONGEST;
use crate::values::Holds;

/// Cuts the bytes off somewhere.
pub fn cut(copy: &mut Copy) -> bool {
    let length = copy.bytes.len();
    let at = match copy.random.weighted(&[35, 20, 10, 20, 5, 10]) {
        0 => copy.random.below(length),
        1 => in_a_count(copy, 1),
        2 => in_a_count(copy, 0),
        3 => in_a_field(copy),
        4 => copy.random.below(4),
        _ => length.saturating_sub(1 + copy.random.below(30)),
    };
    copy.bytes.truncate(at);
    true
}

fn in_a_count(copy: &mut Copy, after: usize) -> usize {
    let count = copy.field(|field| matches!(field.holds, Holds::Count | Holds::Length));
    count.map_or(0, |field| field.at + after)
}

fn in_a_field(copy: &mut Copy) -> usize {
    let field = copy.field(|_| true);
    field.map_or(0, |field| field.at + copy.random.below(field.size))
}

/// Adds bytes at the end, up to the longest length that is allowed.
pub fn longer(copy: &mut Copy) -> bool {
    let room = LONGEST.saturating_sub(copy.bytes.len());
    let more = match copy.random.weighted(&[40, 30, 25, 5]) {
        0 => 1,
        1 => copy.random.between(2, 30),
        2 => copy.random.between(30, 300),
        _ => room,
    };
    extend(copy, more.min(room));
    true
}

/// Adds so many bytes that the sheet is too long.
pub fn too_long(copy: &mut Copy) -> bool {
    let length = match copy.random.weighted(&[50, 30, 20]) {
        0 => LONGEST + 1,
        1 => LONGEST + copy.random.between(2, 100),
        _ => LONGEST + copy.random.between(100, 9_000),
    };
    extend(copy, length.saturating_sub(copy.bytes.len()));
    true
}

/// Zeros, or the sheet over again, or any bytes.
fn extend(copy: &mut Copy, more: usize) {
    let before = copy.bytes.len();
    match copy.random.below(3) {
        0 => copy.bytes.resize(before + more, 0),
        1 if before > 0 => {
            let again = (0..more).map(|place| copy.bytes[place % before]);
            let again: Vec<u8> = again.collect();
            copy.bytes.extend(again);
        }
        _ => {
            for _ in 0..more {
                let byte = copy.random.word() as u8;
                copy.bytes.push(byte);
            }
        }
    }
}

/// Changes a byte anywhere, now and then several.
pub fn flips(copy: &mut Copy) -> bool {
    let count = [1, 2, 5][copy.random.weighted(&[75, 15, 10])];
    for _ in 0..count {
        let at = copy.random.below(copy.bytes.len());
        copy.bytes[at] = match copy.random.weighted(&[60, 20, 20]) {
            0 => copy.bytes[at] ^ 1 << copy.random.below(8),
            1 => copy.random.word() as u8,
            _ => copy.random.pick(&[0, 1, 127, 128, 255]),
        };
    }
    true
}
