//! wants: the library against the second program.

use second::inputs::faults::EDGES;
use second::inputs::{granules, tables};
use second::{shares, Answer};

use crate::batch::Entry;
use crate::trial::{Named, Trial};

pub const TRIALS: &[Named] = &[
    ("wants, all small", all_small),
    ("wants, each granule", each_granule),
    ("wants, edges", edges),
    ("wants, within the limits", within_the_limits),
    ("wants, any", any),
];

/// Trying costs as many steps as there are granules.
const FEW_STEPS: u64 = 70_000;

/// A share of a cycle.
type Share = [u16; 3];

/// The granules that are enough while one less is not, in numbers wide enough for every product.
fn enough(trial: &Trial, granule: u64, [m, num, den]: Share) -> u64 {
    if den == 0 || granule == 0 {
        return 0;
    }
    let whole = u128::from(m) * u128::from(num);
    let one = u128::from(granule) * u128::from(den);
    let granules = whole.div_ceil(one);
    let exact = granules * one >= whole && (granules == 0 || (granules - 1) * one < whole);
    trial.same((granule, m, num, den, granules), exact, true);
    granules as u64
}

fn compare(trial: &mut Trial, granule: u64, share: Share) {
    let granules = enough(trial, granule, share);
    let q = granules * granule;
    let [m, num, den] = share;
    if granules <= FEW_STEPS {
        let counted = shares::wants(granule, m, num, den);
        trial.same((granule, share), counted, q);
    }
    let given = [granule, m.into(), num.into(), den.into()];
    trial.call(Entry::Wants, &given, Answer::good([q, 0, 0, 0]));
}

fn all_small(trial: &mut Trial) {
    for m in trial.each(0..=40) {
        for num in 0..=40 {
            for den in 0..=40 {
                compare(trial, 1, [m, num, den]);
            }
        }
    }
}

/// Beside the small ones: cycles and shares about a granule or two.
fn each_granule(trial: &mut Trial) {
    for granule in trial.each(granules::all()) {
        for m in [0, 1, 2, 7, 15, 16, 17, 31, 32, 33, 4095, 4096] {
            for num in 0..=17 {
                for den in [0, 1, 2, 3, 8, 15, 16, 17, 1000] {
                    compare(trial, granule, [m, num, den]);
                }
            }
        }
    }
}

fn edges(trial: &mut Trial) {
    for m in trial.each(EDGES) {
        for num in EDGES {
            for den in EDGES {
                let any = any_width(trial);
                let outside = trial.rng.pick(&granules::OUTSIDE);
                for granule in granules::each().chain([outside, any]) {
                    compare(trial, granule, [m, num, den]);
                }
            }
        }
    }
}

fn within_the_limits(trial: &mut Trial) {
    for _ in trial.cases(50_000) {
        let granule = trial.rng.between(1, 16) as u64;
        let m = trial.rng.between(1, 4096) as u16;
        let [num, den] = tables::share(&mut trial.rng);
        compare(trial, granule, [m, num, den]);
    }
}

/// A number of any width.
fn any_width(trial: &mut Trial) -> u64 {
    let bits = trial.rng.between(1, 64);
    trial.rng.number() >> (64 - bits)
}

fn any(trial: &mut Trial) {
    for _ in trial.cases(50_000) {
        let granule = any_width(trial);
        let share = [0; 3].map(|_: u16| trial.rng.number() as u16);
        compare(trial, granule, share);
    }
}
