//! Editions in every call that takes one, and in files: the library against the second program. The
//! other trials of these calls draw editions too.

mod both;
mod refused;
mod repeats;

use second::inputs::plans;

use crate::curve::compare_counted;
use crate::service::{compare_held, compare_least};
use crate::trial::{Named, Trial};

pub const TRIALS: &[Named] = &[
    ("editions, by hand", by_hand),
    ("editions, every small plan", every_small_plan),
    ("editions, 2 and service", refused::beside_service),
    ("editions, 2 and a plan", refused::beside_a_plan),
    ("editions, 2 and a table to write", refused::beside_a_table),
    ("editions, built and checked", both::built_and_checked),
    ("editions, just enough", both::just_enough),
    ("editions, never easier", both::never_easier),
    ("editions, files there and back", both::files_there_and_back),
    ("editions, listed in both", both::listed),
    ("editions, service that repeats", repeats::service),
    (
        "editions, runs that serve nobody",
        repeats::runs_that_serve_nobody,
    ),
    ("editions, long service that repeats", repeats::long_service),
];

/// Plans, and whom their ticks serve in edition 2.
const BY_HAND: [(&[u16], &[u16]); 24] = [
    // No tick, one tick, one run.
    (&[], &[]),
    (&[1], &[1]),
    (&[0], &[0]),
    (&[65_535], &[65_535]),
    (&[1, 1, 1, 1], &[1, 1, 1, 1]),
    (&[0, 0, 0], &[0, 0, 0]),
    // All switch ticks.
    (&[1, 2], &[0, 0]),
    (&[1, 0], &[0, 0]),
    (&[1, 2, 1, 2], &[0, 0, 0, 0]),
    (&[1, 2, 3, 0, 1, 3], &[0, 0, 0, 0, 0, 0]),
    // First and last run of one owner.
    (&[1, 2, 1], &[1, 0, 0]),
    (&[1, 1, 2, 1], &[1, 1, 0, 0]),
    (&[1, 2, 2, 1], &[1, 0, 2, 0]),
    (&[2, 2, 0, 1, 1, 2, 2], &[2, 2, 0, 0, 1, 0, 2]),
    // Of two owners, and an idle end.
    (&[1, 1, 2, 2], &[0, 1, 0, 2]),
    (&[1, 1, 1, 0], &[0, 1, 1, 0]),
    (&[0, 1, 1, 1], &[0, 0, 1, 1]),
    // Idle between two runs of one owner.
    (&[1, 0, 1], &[1, 0, 0]),
    (&[1, 1, 0, 1, 1], &[1, 1, 0, 0, 1]),
    (&[2, 1, 1, 0, 1, 1], &[0, 0, 1, 0, 0, 1]),
    // P1 and P5, and owners that agree in their lower bits.
    (&[1, 2, 2, 2, 1, 3, 0, 0], &[0, 0, 2, 2, 0, 0, 0, 0]),
    (&[1, 1, 0, 0, 0, 0, 1, 1], &[1, 1, 0, 0, 0, 0, 0, 1]),
    (&[256, 256, 0, 512], &[0, 256, 0, 0]),
    (&[1, 257, 257, 1, 1], &[1, 0, 257, 0, 1]),
];

/// Each tick by itself, and then all that can be asked of these plans.
fn by_hand(trial: &mut Trial) {
    for (plan, served) in trial.each(BY_HAND) {
        for (s, (&owner, &whom)) in (0..).zip(plan.iter().zip(served)) {
            for p in [0, 1, 2, 3, 256, 257, 512, 65_535] {
                for (edition, serves) in [(1, owner), (2, whom)] {
                    let found = compare_held(trial, edition, plan, p, s, 1).first;
                    trial.same((edition, plan, p, s), found, u64::from(serves == p));
                }
            }
        }
        for p in [0, 1, 2, 3, 256, 257, 65_535] {
            every_stretch(trial, plan, p);
            compare_counted(trial, plan, p, 3 * plan.len() + 1);
        }
    }
}

/// Every start and every length, up to two frames, in both editions.
fn every_stretch(trial: &mut Trial, plan: &[u16], p: u16) {
    let ticks = plan.len() as u32;
    for edition in [1, 2] {
        for n in 0..=2 * ticks + 1 {
            for s in 0..=2 * ticks {
                compare_held(trial, edition, plan, p, s, n);
            }
            compare_least(trial, edition, plan, p, n);
        }
    }
}

/// All plans of up to five ticks over owners 0 to 2.
fn every_small_plan(trial: &mut Trial) {
    for plan in trial.each((0..=5).flat_map(|ticks| plans::every(ticks, 3))) {
        for p in 0..=2 {
            every_stretch(trial, &plan, p);
            compare_counted(trial, &plan, p, 3 * plan.len());
        }
    }
}
