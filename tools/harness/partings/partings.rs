//! Which of partings 1 to 3 and difference 9 hold in the passes of the build that has them all, and
//! whether difference 8 holds in its normaliser. Each can be let go, so that a difference from the
//! published answers can be named by those that it needs.

use std::cell::Cell;

/// The set of partings 1 to 3 and difference 9: bit n for number n.
pub const ALL: u16 = 0b10_0000_1110;

/// Difference 8, beside them.
const SUMS: u16 = 1 << 8;

thread_local! {
    static HELD: Cell<u16> = const { Cell::new(ALL | SUMS) };
}

/// What `work` gives where just the partings of the set hold, and difference 8 does not.
pub fn with<T>(set: u16, work: impl FnOnce() -> T) -> T {
    let before = HELD.replace(set);
    let result = work();
    HELD.set(before);
    result
}

pub fn held(number: u32) -> bool {
    HELD.get() >> number & 1 == 1
}

/// Parting 3: the width at which a mask is read, w or 64.
pub fn mask_width(modmask: u64) -> u32 {
    match held(3) {
        true => modmask.count_ones(),
        false => u64::BITS,
    }
}
