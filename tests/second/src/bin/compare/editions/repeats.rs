//! Curves in edition 2 whose service repeats, sooner than the owners do or not.

use second::inputs::plans;
use second::rng::Rng;

use crate::curve::{compare_counted, compare_exact};
use crate::seen::Seen;
use crate::trial::Trial;

/// Owners that come again and again, by which service comes again sooner: in `1 2 2 2` partition 1 has
/// none, in `1 1 2 1 1 3` it has the same in both halves, and in `1 1 2 2` every second tick is nobody's.
const PATTERNS: [&[u16]; 14] = [
    &[1, 2, 2, 2],
    &[2, 1, 1, 1],
    &[1, 1, 2, 1, 1, 3],
    &[1, 1, 2, 1, 1, 0],
    &[1, 1, 2, 2],
    &[1, 1, 0, 2, 2, 0],
    &[1, 1, 1, 2, 2, 2, 3, 3, 3],
    &[1, 1, 2, 0, 1, 1, 0, 2],
    &[1, 1, 2, 1, 2, 1, 1, 2, 2, 1],
    &[1, 1, 0, 0, 1, 1, 0, 1],
    &[1, 2],
    &[1, 0, 2, 0],
    &[1, 1, 0],
    &[0, 1],
];

/// Whole patterns one behind the other, and frames that end within one: its ends then join.
pub fn service(trial: &mut Trial) {
    for owners in trial.each(PATTERNS) {
        for frame in 1..=24 {
            let plan = plans::repeating(owners, frame);
            for p in 0..=3 {
                compare_counted(trial, &plan, p, 3 * frame);
            }
        }
    }
}

/// The plan with runs of one tick put among its idle ticks.
fn with_runs_of_one_tick(rng: &mut Rng, plan: &[u16]) -> Vec<u16> {
    let frame = plan.len();
    let mut other = plan.to_vec();
    for tick in 0..frame {
        let beside = [frame - 1, 1].map(|way| other[(tick + way) % frame]);
        let p = rng.between(1, 2) as u16;
        if frame > 1 && other[tick] == 0 && !beside.contains(&p) && rng.one_in(3) {
            other[tick] = p;
        }
    }
    other
}

/// Runs of one tick are nobody's service in edition 2, so that they change no curve but in edition 1.
pub fn runs_that_serve_nobody(trial: &mut Trial) {
    let mut seen = Seen::default();
    for _ in trial.cases(3000) {
        let rng = &mut trial.rng;
        let [times, ticks] = [5, 12].map(|most| rng.between(1, most));
        let plan = plans::in_runs_up_to(rng, ticks, 2, 5).repeat(times);
        let other = with_runs_of_one_tick(rng, &plan);
        let n = rng.between(1, 3 * plan.len());
        for p in 0..=2 {
            let [one, two] = [1, 2].map(|edition| {
                let curves = [&plan, &other].map(|plan| compare_exact(trial, edition, plan, p, n));
                curves[0] == curves[1]
            });
            trial.same((&plan, &other, p, n), two, true);
            let kind = if one { "alike" } else { "apart" };
            seen.count(format!("{kind} in edition 1"));
        }
    }
    let kinds = ["alike in edition 1", "apart in edition 1"];
    seen.share(trial, &kinds, [1, 4]);
}

/// The patterns in frames at the limit, unbroken or with one tick of another owner.
pub fn long_service(trial: &mut Trial) {
    for owners in trial.each(PATTERNS) {
        let frame = trial.rng.pick(&[4096, 4095, 3960]);
        let mut plan = plans::repeating(owners, frame);
        let n = trial.rng.pick(&[63, 64, 1000, 4096, 4097]);
        for _ in 0..2 {
            for p in [0, 1] {
                compare_exact(trial, 2, &plan, p, n);
            }
            plans::damage(&mut trial.rng, &mut plan, 2);
        }
    }
}
