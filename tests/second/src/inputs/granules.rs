//! Granules: within the limits and outside of them.

use crate::limits::GRANULE;
use crate::rng::Rng;

/// Granules that are refused: beside the limits, and those whose lower bits are good, or none.
pub const OUTSIDE: [u64; 18] = [
    0,
    17,
    18,
    32,
    255,
    256,
    257,
    32_768,
    65_535,
    65_536,
    65_537,
    (1 << 16) + 16,
    1 << 32,
    (1 << 32) + 1,
    (1 << 32) + 16,
    (1 << 48) + 2,
    (1 << 63) + 1,
    u64::MAX,
];

/// Every good granule and the two beside them.
pub fn each() -> impl Iterator<Item = u64> + Clone {
    0..=GRANULE + 1
}

/// Those, and all the others that are refused.
pub fn all() -> impl Iterator<Item = u64> + Clone {
    each().chain(OUTSIDE.into_iter().skip(2))
}

/// A good one of at most so many ticks, which must be some: one tick, few, or any.
pub fn up_to(rng: &mut Rng, most: usize) -> u64 {
    let most = most.min(GRANULE as usize);
    let granule = match rng.between(0, 2) {
        0 => 1,
        1 => rng.between(1, most.min(4)),
        _ => rng.between(1, most),
    };
    granule as u64
}

/// Any good one.
pub fn good(rng: &mut Rng) -> u64 {
    up_to(rng, GRANULE as usize)
}

/// The same, or now and then another one, which may be refused.
pub fn or_other(rng: &mut Rng, granule: u64) -> u64 {
    match rng.between(0, 29) {
        0 => rng.pick(&OUTSIDE),
        1 | 2 => good(rng),
        _ => granule,
    }
}
