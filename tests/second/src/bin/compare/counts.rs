//! The running counts: the library against the second program.

mod changes;
mod lent;
mod order;
mod refused;
mod stretches;

use second::inputs::counts::{self as inputs, Ask};
use second::inputs::plans;
use second::plan;
use second::records::Question;

use crate::seen::{kind, Seen};
use crate::trial::{Named, Trial};
use lent::{ask, some_length, some_lent, Lent, PATTERN};

pub const TRIALS: &[Named] = &[
    ("counts, fill", fill_lists),
    ("counts, every stretch", stretches::every_stretch),
    ("counts, any stretch", stretches::any_stretch),
    ("counts, many stretches", stretches::many_stretches),
    (
        "counts, more questions than 16 bits",
        stretches::more_than_16_bits,
    ),
    ("counts, every change", changes::every_change),
    ("counts, any change", changes::any_change),
    ("counts, sequences", sequences),
    ("counts, the longest frame", the_longest_frame),
    ("counts, each number spoilt", refused::each_number_spoilt),
    ("counts, spoilt lists", refused::spoilt_lists),
    ("counts, the lowest question", refused::the_lowest_question),
    ("counts, faults in order", order::faults_in_order),
    ("counts, faults", refused::faults),
    ("counts, each limit", refused::each_limit),
    ("counts, the longest list", refused::the_longest_list),
    (
        "counts, outside the longest frame",
        refused::outside_the_longest_frame,
    ),
];

const PLANS: [&str; 4] = [
    "a plan that serves",
    "a plan that doesn't",
    "one tick",
    "sixteen partitions",
];

fn note_plan(seen: &mut Seen, lent: &Lent) {
    let serves = plan::check(1, 1, &lent.plan, &lent.parts).number == 0;
    let is = [serves, !serves, lent.frame() == 1, lent.partitions() == 16];
    for (_, kind) in is.iter().zip(PLANS).filter(|(is, _)| **is) {
        seen.count(kind.to_string());
    }
}

fn fill_lists(trial: &mut Trial) {
    let mut seen = Seen::default();
    for _ in trial.cases(12_000) {
        let rng = &mut trial.rng;
        let longest = rng.pick(&[1, 3, 12, 40]);
        let mut lent = some_lent(rng, longest);
        let needed = lent.needed();
        let numbers = some_length(rng, needed);
        let before = rng.pick(&[0, 1, PATTERN, 65_535]);
        lent.list = vec![before; numbers];
        let answer = ask(trial, &mut lent, &Ask::Fill);
        let longer = if numbers > needed { ", longer" } else { "" };
        seen.count(kind(answer) + longer);
        note_plan(&mut seen, &lent);
    }
    seen.share(trial, &["0", "0, longer", "12"], [1, 8]);
    seen.share(trial, &PLANS, [1, 8]);
}

/// A list that was filled and then changed by changes alone agrees with its plan for good.
fn sequences(trial: &mut Trial) {
    let mut seen = Seen::default();
    for case in trial.cases(700) {
        let longest = if case % 20 == 0 { 200 } else { 24 };
        let mut lent = some_lent(&mut trial.rng, longest);
        lent.list.fill(PATTERN);
        ask(trial, &mut lent, &Ask::Fill);
        for _ in 0..trial.rng.between(5, 30) {
            let [_, one, many, change] =
                inputs::asks(&mut trial.rng, lent.partitions(), lent.frame());
            for asked in [change, one, many] {
                let answer = ask(trial, &mut lent, &asked);
                trial.same((&lent, &asked), answer.number, 0);
            }
            seen.count("changes".to_string());
        }
    }
    seen.share(trial, &["changes"], [10, 1]);
}

/// Sixteen partitions, 4,096 ticks: 65,552 counts, of which the largest is 4,096.
fn the_longest_frame(trial: &mut Trial) {
    for case in trial.cases(4) {
        let rng = &mut trial.rng;
        let plan = match case {
            0 => vec![16; 4096],
            1 => plans::in_runs(rng, 4096, 16),
            _ => plans::scattered(rng, 4096, 16),
        };
        let mut lent = Lent::filled(plan, [4096, 1, 16].repeat(16), case as usize);
        lent.list.fill(PATTERN);
        let questions = inputs::questions(rng, 2000, 16, 4096);
        let [_, one, ..] = inputs::asks(rng, 16, 4096);
        let corner = Question {
            partition: 16,
            start: 4095,
            length: 4096,
        };
        let answers = 2000;
        for asked in [
            Ask::Fill,
            one,
            Ask::Held(corner),
            Ask::Change { tick: 0, owner: 1 },
            Ask::Change {
                tick: 4095,
                owner: 0,
            },
            Ask::HeldMany { questions, answers },
            Ask::Held(corner),
        ] {
            let answer = ask(trial, &mut lent, &asked);
            trial.same((case, &asked), answer.number, 0);
        }
    }
}
