//! Editions: the two that there are, and others.

use crate::editions::Edition;
use crate::rng::Rng;

/// Editions that are refused: beside the good ones, and those whose lower bits are good, or none.
pub const OUTSIDE: [u64; 18] = [
    0,
    3,
    4,
    16,
    255,
    256,
    257,
    258,
    65_535,
    65_536,
    (1 << 16) + 1,
    (1 << 16) + 2,
    1 << 32,
    (1 << 32) + 1,
    (1 << 32) + 2,
    (1 << 48) + 2,
    (1 << 63) + 1,
    u64::MAX,
];

/// The good ones, and all those.
pub fn all() -> impl Iterator<Item = u64> + Clone {
    [1, 2].into_iter().chain(OUTSIDE)
}

/// A good one, more often that with the switch tick.
pub fn good(rng: &mut Rng) -> Edition {
    rng.pick(&[Edition::One, Edition::Two, Edition::Two])
}

/// The same, or now and then another one, which may be refused.
pub fn or_other(rng: &mut Rng, edition: u64) -> u64 {
    match rng.between(0, 29) {
        0 => rng.pick(&OUTSIDE),
        1 | 2 => good(rng).number(),
        _ => edition,
    }
}

/// A good one, or now and then one that is refused.
pub fn some(rng: &mut Rng) -> u64 {
    let edition = good(rng).number();
    or_other(rng, edition)
}
