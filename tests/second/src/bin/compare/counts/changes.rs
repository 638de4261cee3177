//! Ticks given to another owner.

use second::inputs::counts as inputs;
use second::Answer;

use super::lent::{change, small_lent, some_lent, Lent};
use crate::seen::{kind, Seen};
use crate::trial::Trial;

/// Notes the answer, and of a good one who owned the tick and who owns it now.
fn note_change(seen: &mut Seen, before: &Lent, tick: usize, owner: usize, answer: Answer) {
    seen.count(kind(answer));
    if answer.number != 0 {
        if tick.max(owner) > 65_535 {
            seen.count(kind(answer) + ", past 16 bits");
        }
        return;
    }
    let old = usize::from(before.plan[tick]);
    for (is, how) in [
        (old == owner, "the same owner"),
        (old == 0 && owner > 0, "from idle"),
        (old > 0 && owner == 0, "to idle"),
        (old > 0 && owner > 0 && old != owner, "to another partition"),
        (owner == before.partitions(), "to the last partition"),
        (tick == 0, "the first tick"),
        (tick + 1 == before.frame(), "the last tick"),
    ] {
        if is {
            seen.count(how.to_string());
        }
    }
}

const CHANGES: [&str; 7] = [
    "the same owner",
    "from idle",
    "to idle",
    "to another partition",
    "to the last partition",
    "the first tick",
    "the last tick",
];

/// All ticks and owners of small plans, and those beside them.
pub fn every_change(trial: &mut Trial) {
    let mut seen = Seen::default();
    for _ in trial.cases(300) {
        let lent = small_lent(&mut trial.rng);
        for tick in trial.each(0..=lent.frame() + 1) {
            for owner in 0..=lent.partitions() + 1 {
                let answer = change(trial, &mut lent.clone(), tick, owner);
                note_change(&mut seen, &lent, tick, owner, answer);
            }
        }
    }
    seen.share(trial, &CHANGES, [1, 4]);
    seen.share(trial, &["0", "8 with place 0", "26"], [1, 2]);
}

pub fn any_change(trial: &mut Trial) {
    let mut seen = Seen::default();
    for case in trial.cases(12_000) {
        let rng = &mut trial.rng;
        let longest = if case % 20 == 0 { 300 } else { 30 };
        let mut lent = some_lent(rng, longest);
        let [tick, owner] = inputs::any_change(rng, lent.partitions(), lent.frame());
        let before = lent.clone();
        let answer = change(trial, &mut lent, tick, owner);
        note_change(&mut seen, &before, tick, owner, answer);
    }
    seen.share(trial, &CHANGES, [1, 50]);
    let refused = ["8 with place 0", "26"];
    seen.share(trial, &refused, [1, 10]);
    let wide = refused.map(|kind| kind.to_string() + ", past 16 bits");
    seen.share(trial, &wide, [1, 20]);
}
