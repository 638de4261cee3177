//! The builder: the library against the second program.

use second::inputs::{faults, granules, tables};
use second::rng::Rng;
use second::{builder, plan, Answer};

use crate::batch::Entry;
use crate::seen::Seen;
use crate::trial::{Named, Trial};

pub const TRIALS: &[Named] = &[
    ("build, harmonic", harmonic),
    ("build, full and one tick more", full_and_one_tick_more),
    ("build, any cycles", any_cycles),
    (
        "build, one cycle out of the chain",
        one_cycle_out_of_the_chain,
    ),
    ("build, faults", faults),
    ("build, at the limits", at_the_limits),
    ("build, sums that are wide", sums_that_are_wide),
    ("build, each length of the table", each_length_of_the_table),
];

/// What stands in the output before, and has to stand behind it after.
const PATTERN: u16 = 0xA5C3;
const BEHIND: usize = 8;

/// Lends so many ticks to both programs; the answer, and what then stands in the output.
pub fn compare(
    trial: &mut Trial,
    granule: u64,
    parts: &[u16],
    out_ticks: usize,
) -> (Answer, Vec<u16>) {
    let before = vec![PATTERN; out_ticks + BEHIND];
    let mut after = before.clone();
    let answer = builder::build(granule, parts, &mut after[..out_ticks]);
    let call = trial.call(Entry::Build, &[granule], answer);
    call.reads(parts).writes(out_ticks, &before, &after);
    (answer, after)
}

/// Lends just enough ticks and the most, and what was written is accepted by the checker in edition
/// 1; the refusal's number, 0 for a plan.
fn compare_checked(trial: &mut Trial, granule: u64, parts: &[u16]) -> u64 {
    compare(trial, granule, parts, largest_cycle(parts));
    let (answer, out) = compare(trial, granule, parts, 4096);
    if answer.number == 0 {
        let written = &out[..answer.first as usize];
        let checked = plan::check(1, granule, written, parts);
        trial.same((granule, parts, written), checked.number, 0);
    }
    answer.number
}

/// The answer's kind, and whether granules are one tick or more.
fn noted(granule: u64, number: u64) -> String {
    let size = if granule == 1 { "one tick" } else { "more" };
    format!("{number} with granules of {size}")
}

/// An output that is empty, too short, exact, or longer.
fn out_ticks(rng: &mut Rng, frame: usize) -> usize {
    match rng.between(0, 5) {
        0 => 0,
        1 => frame.saturating_sub(1),
        2 => frame,
        3 => frame + 1,
        _ => rng.between(0, 2 * frame),
    }
}

fn largest_cycle(parts: &[u16]) -> usize {
    let cycles = parts.chunks(3).map(|record| usize::from(record[0]));
    cycles.max().unwrap_or(0)
}

/// A table and outputs of several lengths.
fn compare_lengths(trial: &mut Trial, granule: u64, parts: &[u16]) {
    let frame = largest_cycle(parts).min(5000);
    let ticks = out_ticks(&mut trial.rng, frame);
    compare(trial, granule, parts, ticks);
}

fn harmonic(trial: &mut Trial) {
    let mut seen = Seen::default();
    for _ in trial.cases(30_000) {
        let rng = &mut trial.rng;
        let longest = rng.pick(&[1, 4, 12, 48, 64]);
        let most = rng.pick(&[3, 6, 16]);
        let count = rng.between(1, most);
        let granule = granules::good(rng);
        let parts = tables::harmonic(rng, granule, count, longest);
        let granule = granules::or_other(rng, granule);
        let number = compare_checked(trial, granule, &parts);
        seen.count(noted(granule, number));
        compare_lengths(trial, granule, &parts);
    }
    let kinds = [noted(1, 0), noted(2, 0), noted(1, 11), noted(2, 11)];
    seen.share(trial, &kinds, [1, 20]);
    seen.share(trial, &[noted(0, 21)], [1, 50]);
}

/// Full but for less than a granule, and one granule more.
fn full_and_one_tick_more(trial: &mut Trial) {
    let mut seen = Seen::default();
    for _ in trial.cases(20_000) {
        let rng = &mut trial.rng;
        let longest = rng.between(1, 100);
        let count = rng.pick(&[1, 2, 4, 16]);
        let above = rng.one_in(2);
        let granule = granules::good(rng);
        let parts = tables::full(rng, granule, count, longest, above);
        let number = compare_checked(trial, granule, &parts);
        seen.count(noted(granule, number));
        compare_lengths(trial, granule, &parts);
    }
    let kinds = [noted(1, 0), noted(2, 0), noted(1, 11), noted(2, 11)];
    seen.share(trial, &kinds, [1, 20]);
}

fn any_cycles(trial: &mut Trial) {
    for _ in trial.cases(20_000) {
        let longest = trial.rng.pick(&[4, 8, 4096]);
        let count = trial.rng.between(1, 4);
        let parts = tables::partitions(&mut trial.rng, count, longest);
        let granule = granules::good(&mut trial.rng);
        compare_lengths(trial, granule, &parts);
    }
}

fn one_cycle_out_of_the_chain(trial: &mut Trial) {
    for _ in trial.cases(10_000) {
        let rng = &mut trial.rng;
        let count = rng.between(2, 16);
        let granule = granules::good(rng);
        let mut parts = tables::harmonic(rng, granule, count, 64);
        let place = rng.between(0, count - 1);
        parts[3 * place] = rng.between(1, 70) as u16;
        compare_lengths(trial, granule, &parts);
    }
}

fn faults(trial: &mut Trial) {
    for _ in trial.cases(30_000) {
        let rng = &mut trial.rng;
        let count = rng.between(1, 5);
        let granule = granules::good(rng);
        let mut parts = tables::harmonic(rng, granule, count, 32);
        for _ in 0..rng.between(1, 3) {
            faults::partitions(rng, &mut parts, 4096);
        }
        let granule = granules::or_other(rng, granule);
        compare_lengths(trial, granule, &parts);
    }
}

fn at_the_limits(trial: &mut Trial) {
    for case in trial.cases(400) {
        let rng = &mut trial.rng;
        let count = rng.pick(&[1, 2, 15, 16]);
        let granule = granules::good(rng);
        let parts = match case % 3 {
            0 => tables::harmonic(rng, granule, count, 4096),
            1 => tables::full(rng, granule, count, 4096, false),
            _ => tables::full(rng, granule, count, 4096, true),
        };
        // The checker is tried on these elsewhere: the second program's costs a frame times a cycle.
        compare(trial, granule, &parts, 4096);
        compare_lengths(trial, granule, &parts);
    }
}

fn sums_that_are_wide(trial: &mut Trial) {
    for count in trial.each(1..=17) {
        for cycle in [1, 2, 4095, 4096, 4097] {
            for ticks in [0, 4095, 4096, 4097] {
                for granule in [1, 15, 16] {
                    compare(trial, granule, &[cycle, 1, 1].repeat(count), ticks);
                }
            }
        }
        // Cycles of one tick beside the longest: each of them wants all 4,096, or as often a granule.
        // The largest sum is 987,136, which in 16 bits is 4,096.
        for granule in granules::each() {
            for share in [[1, 1000], [1, 1]] {
                let longest = [&[4096][..], &share].concat();
                let parts = [[1, 1, 1].repeat(count), longest].concat();
                compare(trial, granule, &parts, 4096);
            }
        }
    }
}

fn each_length_of_the_table(trial: &mut Trial) {
    for numbers in trial.each(0..=60) {
        let parts = [16, 1, 16].repeat(20)[..numbers].to_vec();
        for ticks in [0, 15, 16, 17] {
            for granule in [1, 16, 17] {
                compare(trial, granule, &parts, ticks);
            }
        }
    }
}
