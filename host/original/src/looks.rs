//! A limit on looks into maps: what ends a run whose recursion has no end, or that is a loop in the compiled code.

use std::cell::Cell;
use std::panic::panic_any;

thread_local! {
    static LEFT: Cell<u64> = const { Cell::new(u64::MAX) };
}

/// The panic of a run that looked once more than it may.
pub struct TooMany;

/// Called before each look.
pub fn count() {
    let left = LEFT.get();
    if left == 0 {
        LEFT.set(u64::MAX);
        panic_any(TooMany);
    }
    LEFT.set(left - 1);
}

/// From now on so many looks may be taken.
pub fn allow(looks: u64) {
    LEFT.set(looks);
}
