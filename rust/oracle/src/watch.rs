//! What a run of the copies notes: the blocks that it reaches and the powers that it takes.

use crate::copies::BLOCKS;
use std::cell::RefCell;

thread_local! {
    static REACHED: RefCell<[bool; BLOCKS.len()]> = const { RefCell::new([false; BLOCKS.len()]) };
    static POWERS: RefCell<Vec<(f64, f64)>> = const { RefCell::new(Vec::new()) };
}

/// Notes a block, by its number in [`BLOCKS`].
pub fn reached(block: usize) {
    REACHED.with_borrow_mut(|all| all[block] = true);
}

/// The blocks reached since the last call.
pub fn take_reached() -> [bool; BLOCKS.len()] {
    REACHED.replace([false; BLOCKS.len()])
}

/// Notes that x was raised to f.
pub fn power_taken(x: f64, f: f64) {
    POWERS.with_borrow_mut(|all| all.push((x, f)));
}

/// The powers taken since the last call.
pub fn take_powers() -> Vec<(f64, f64)> {
    POWERS.take()
}
