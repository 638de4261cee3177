//! The editions: ask 6 of document 02, "the switch tick".

use crate::answer::Answer;

/// "edition 1 files keep their rule for good".
#[derive(Clone, Copy, Debug, PartialEq, Eq)]
pub enum Edition {
    One,
    Two,
}

impl Edition {
    pub const BOTH: [Edition; 2] = [Edition::One, Edition::Two];

    /// "2 now means neither 1 nor 2, in a call too."
    pub fn of(number: u64) -> Result<Edition, Answer> {
        let named = |edition: &Edition| edition.number() == number;
        let found = Edition::BOTH.into_iter().find(named);
        found.ok_or(Answer::refused(2))
    }

    pub fn number(self) -> u64 {
        match self {
            Edition::One => 1,
            Edition::Two => 2,
        }
    }

    /// Whom a tick of the plan serves: its owner, or nobody, which is 0. "A switch tick is owned but
    /// doesn't count as service."
    pub fn serves(self, plan: &[u16], tick: usize) -> u16 {
        match self {
            Edition::Two if switches(plan, tick) => 0,
            _ => plan[tick],
        }
    }
}

/// "the first tick of a run is spent on switching when the tick before belongs to another partition
/// or to idle, the frame's end joined to its start". So "a plan of one run has no switch tick".
fn switches(plan: &[u16], tick: usize) -> bool {
    let before = if tick == 0 { plan.len() } else { tick } - 1;
    plan[tick] != 0 && plan[before] != plan[tick]
}
