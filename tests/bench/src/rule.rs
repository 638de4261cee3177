//! The rule of an edition, as a parameter of the library's methods in Rust. It is known when they are
//! compiled, so that edition 1 pays nothing for it.

/// Whether a tick is p's, and no switch tick in edition 2: "the first tick of a run is spent on switching
/// when the tick before belongs to another partition or to idle, the frame's end joined to its start".
pub fn own<const EDITION: u64>(plan: &[u16], tick: usize, p: u16) -> bool {
    plan[tick] == p && (EDITION == 1 || before(plan, tick) == p)
}

/// The owner of the tick before.
pub fn before(plan: &[u16], tick: usize) -> u16 {
    plan[if tick == 0 { plan.len() } else { tick } - 1]
}

/// What stands behind an entry's name.
pub const fn named<const EDITION: u64>() -> &'static str {
    if EDITION == 1 {
        ""
    } else {
        ", edition 2"
    }
}
