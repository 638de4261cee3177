//! 2 beside each other refusal: it is the first of all, in the edition's whole width.

use second::editions::Edition;
use second::inputs::files::Tables;
use second::inputs::{editions, plans};

use crate::curve;
use crate::file::{compare_read, compare_write, length};
use crate::granules::{all_good, compare_all, first, up_to_two};
use crate::seen::kind;
use crate::service::{compare_held, compare_least};
use crate::trial::Trial;

fn good(edition: u64) -> bool {
    Edition::of(edition).is_ok()
}

/// "2 now means neither 1 nor 2, in a call too": of plans of any length, and before a list that is too
/// short.
pub fn beside_service(trial: &mut Trial) {
    for edition in trial.each(editions::all()) {
        let number = if good(edition) { 0 } else { 2 };
        for ticks in [0, 1, 2, 3, 4096, 4097, 70_000] {
            let plan = plans::in_runs(&mut trial.rng, ticks, 2);
            for p in [0, 1] {
                let held = compare_held(trial, edition, &plan, p, 1, 9);
                let least = compare_least(trial, edition, &plan, p, 3);
                let numbers = [held.number, least.number];
                trial.same((edition, ticks, p), numbers, [number; 2]);
                for (numbers, short) in [(0, 12), (3, 12), (4, 0), (9, 0)] {
                    let (answer, _) = curve::compare(trial, edition, &plan, p, 3, numbers);
                    let wanted = if number == 0 { short } else { number };
                    trial.same((edition, ticks, numbers), answer.number, wanted);
                }
            }
        }
    }
}

/// 2 before every other refusal of the checker and the engines, and every two of them; with a granule
/// that is good and one that is not.
pub fn beside_a_plan(trial: &mut Trial) {
    for faults in trial.each(up_to_two()) {
        let (mut input, mut place) = (all_good(), 1);
        for (_, _, put) in faults.iter().rev() {
            put(&mut input, &mut place);
        }
        for edition in editions::all() {
            for granule in [1, 16, 17] {
                input.edition = edition;
                input.granule = granule;
                let of_the_plan = faults.iter().filter(|(_, checked, _)| *checked);
                let kinds = [first(granule, of_the_plan), first(granule, faults.iter())];
                let [plan, all] = kinds.map(|kind| if good(edition) { kind } else { "2" });
                let found = compare_all(trial, &input, place).map(kind);
                let wanted = [plan, all, all].map(String::from);
                trial.same(&input, found, wanted);
            }
        }
    }
}

/// A refusal of the writer, and how to bring it about.
type Fault = (u64, fn(&mut Tables));

/// In their order; the last is none.
const FAULTS: [Fault; 7] = [
    (3, |tables| tables.frame = 0),
    (3, |tables| tables.runs.push(1)),
    (3, |tables| tables.parts.clear()),
    (6, |tables| tables.parts[0] = 9),
    (7, |tables| tables.tasks[1] = 0),
    (8, |tables| tables.runs[1] = 9),
    (0, |_| {}),
];

/// The writer: 2, 3, 6, 7, 8, 12. The output stays as it was.
pub fn beside_a_table(trial: &mut Trial) {
    for edition in trial.each(editions::all()) {
        let all_good = Tables {
            edition,
            frame: 8,
            parts: vec![8, 1, 8],
            tasks: vec![1, 1, 8, 8],
            runs: vec![1, 3, 0, 5],
        };
        for (number, put) in FAULTS {
            let mut tables = all_good.clone();
            put(&mut tables);
            let needed = length(&tables);
            for (bytes, short) in [(0, 12), (needed - 1, 12), (needed, 0), (needed + 9, 0)] {
                let (answer, _) = compare_write(trial, &tables, bytes);
                let wanted = match number {
                    _ if !good(edition) => 2,
                    0 => short,
                    _ => number,
                };
                trial.same((&tables, bytes), answer.number, wanted);
            }
            compare_read(trial, &tables.bytes());
        }
    }
}
