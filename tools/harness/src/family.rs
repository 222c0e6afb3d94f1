//! A family of cases, by which they are counted.

use crate::prng::Prng;

/// `make` makes as many cases as it is asked for; a fixed list takes 0 for all of it.
#[cfg_attr(not(feature = "library"), allow(dead_code))]
pub struct Family<C> {
    pub name: &'static str,
    /// how many are compared with the library
    pub compared: usize,
    /// how many are kept in the vector file
    pub stored: usize,
    pub make: fn(&mut Prng, usize) -> Vec<C>,
}

pub const fn family<C>(
    name: &'static str,
    compared: usize,
    stored: usize,
    make: fn(&mut Prng, usize) -> Vec<C>,
) -> Family<C> {
    Family {
        name,
        compared,
        stored,
        make,
    }
}
