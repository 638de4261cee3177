//! held, least and the checker: the library against the second program.

use second::inputs::plans::Served;
use second::inputs::{editions, faults, granules, plans, tables};
use second::rng::Rng;
use second::service::Service;
use second::{plan, Answer};

use crate::batch::Entry;
use crate::trial::{Named, Trial};

pub const TRIALS: &[Named] = &[
    ("held", held),
    ("least", least),
    ("least, at the limits", least_at_the_limits),
    ("check, any plan", any_plan),
    ("check, serving and damaged", serving_and_damaged),
    ("check, faults", faults),
    ("check, each limit", each_limit),
    ("check, long frames", long_frames),
    ("check, long cycles", long_cycles),
];

pub fn compare_held(
    trial: &mut Trial,
    edition: u64,
    plan: &[u16],
    p: u16,
    s: u32,
    n: u32,
) -> Answer {
    let answer = plan::held(edition, plan, p, s, n);
    let given = [edition, p.into(), s.into(), n.into()];
    trial.call(Entry::Held, &given, answer).reads(plan);
    answer
}

pub fn compare_least(trial: &mut Trial, edition: u64, plan: &[u16], p: u16, t: u32) -> Answer {
    let answer = plan::least(edition, plan, p, t);
    let given = [edition, p.into(), t.into()];
    trial.call(Entry::Least, &given, answer).reads(plan);
    answer
}

pub fn compare_check(
    trial: &mut Trial,
    edition: u64,
    granule: u64,
    plan: &[u16],
    parts: &[u16],
) -> Answer {
    let answer = plan::check(edition, granule, plan, parts);
    let call = trial.call(Entry::Check, &[edition, granule], answer);
    call.reads(plan).reads(parts);
    answer
}

fn some_plan(rng: &mut Rng, longest: usize) -> Vec<u16> {
    let ticks = rng.between(0, longest);
    if rng.one_in(2) {
        plans::scattered(rng, ticks, 3)
    } else {
        plans::in_runs(rng, ticks, 3)
    }
}

/// A start in the frame, past it, or near the width's end.
fn some_start(rng: &mut Rng, frame: usize) -> u32 {
    match rng.between(0, 3) {
        0 => rng.number() as u32,
        1 => u32::MAX - rng.between(0, frame) as u32,
        _ => rng.between(0, 2 * frame) as u32,
    }
}

fn held(trial: &mut Trial) {
    for case in trial.cases(60_000) {
        let longest = if case % 300 == 0 { 5000 } else { 12 };
        let plan = some_plan(&mut trial.rng, longest);
        let p = trial.rng.pick(&[0, 1, 2, 3, 4, 65535]);
        let s = some_start(&mut trial.rng, plan.len());
        let most = if case % 500 == 7 {
            200_000
        } else {
            4 * longest
        };
        let n = trial.rng.between(0, most) as u32;
        let edition = editions::some(&mut trial.rng);
        compare_held(trial, edition, &plan, p, s, n);
    }
}

fn least(trial: &mut Trial) {
    for _ in trial.cases(60_000) {
        let plan = some_plan(&mut trial.rng, 12);
        let p = trial.rng.pick(&[0, 1, 1, 2, 3, 4, 65535]);
        let t = trial.rng.between(0, 40) as u32;
        let edition = editions::some(&mut trial.rng);
        compare_least(trial, edition, &plan, p, t);
    }
}

fn least_at_the_limits(trial: &mut Trial) {
    for case in trial.cases(200) {
        let (ticks, longest) = [(4096, 60), (5, 9000), (1, 70_000)][case as usize % 3];
        let plan = plans::in_runs(&mut trial.rng, ticks, 2);
        let t = trial.rng.between(0, longest) as u32;
        let edition = editions::good(&mut trial.rng).number();
        compare_least(trial, edition, &plan, 1, t);
    }
    for t in trial.each([4095, 4096, 4097, 8191, 8192, 8193, 12_288]) {
        for ticks in [4095, 4096] {
            let plan = plans::in_runs(&mut trial.rng, ticks, 2);
            for edition in [1, 2] {
                compare_least(trial, edition, &plan, 1, t);
            }
        }
    }
}

fn any_plan(trial: &mut Trial) {
    for _ in trial.cases(30_000) {
        let rng = &mut trial.rng;
        let frame = rng.between(1, 20);
        let count = rng.pick(&[1, 1, 2, 3, 16]);
        let parts = tables::partitions(rng, count, frame);
        let plan = plans::scattered(rng, frame, count);
        let granule = granules::up_to(rng, frame);
        let granule = granules::or_other(rng, granule);
        let edition = editions::some(rng);
        compare_check(trial, edition, granule, &plan, &parts);
    }
}

fn check_served(trial: &mut Trial, served: &Served, edition: u64, granule: u64) -> Answer {
    compare_check(trial, edition, granule, &served.plan, &served.parts)
}

fn serving_and_damaged(trial: &mut Trial) {
    for _ in trial.cases(30_000) {
        let rng = &mut trial.rng;
        let longest = rng.between(1, 40);
        let count = rng.pick(&[1, 2, 3, 5, 16]);
        let edition = editions::good(rng);
        let granule = granules::up_to(rng, longest);
        let mut served = plans::served(rng, edition, granule, count, longest);
        let accepted = check_served(trial, &served, edition.number(), granule);
        trial.same((&served, "serves"), accepted.number, 0);
        let edition = editions::or_other(&mut trial.rng, edition.number());
        let granule = granules::or_other(&mut trial.rng, granule);
        let partitions = served.parts.len() / 3;
        plans::damage(&mut trial.rng, &mut served.plan, partitions);
        check_served(trial, &served, edition, granule);
    }
}

fn faults(trial: &mut Trial) {
    for _ in trial.cases(60_000) {
        let rng = &mut trial.rng;
        let edition = editions::good(rng);
        let granule = granules::good(rng);
        let Served {
            mut plan,
            mut parts,
            ..
        } = plans::served(rng, edition, granule, 4, 24);
        let count = parts.len() / 3;
        let frame = plan.len();
        if rng.one_in(2) {
            plans::damage(rng, &mut plan, count);
        }
        if rng.one_in(2) {
            faults::partitions(rng, &mut parts, frame);
        }
        if rng.one_in(2) {
            faults::plan(rng, &mut plan, count);
        }
        let granule = granules::or_other(rng, granule);
        let edition = editions::or_other(rng, edition.number());
        compare_check(trial, edition, granule, &plan, &parts);
    }
}

fn each_limit(trial: &mut Trial) {
    for ticks in trial.each([0, 1, 2, 4095, 4096, 4097, 65536, 65537]) {
        for records in [0, 1, 2, 15, 16, 17, 18] {
            for numbers in [3 * records, 3 * records + 1, 3 * records + 2] {
                let parts = [1, 1, 1].repeat(records + 1)[..numbers].to_vec();
                for (edition, granule) in [(1, 1), (1, 16), (1, 17), (2, 1), (2, 17), (3, 1)] {
                    compare_check(trial, edition, granule, &vec![1; ticks], &parts);
                }
            }
        }
    }
    for frame in trial.each([1, 2, 4095, 4096]) {
        for cycle in [0, 1, frame - 1, frame, frame + 1, 4097, 65535] {
            let plan = vec![1; frame.into()];
            for (edition, granule) in [(1, 1), (1, 16), (1, 17), (2, 1), (2, 17), (3, 1)] {
                compare_check(trial, edition, granule, &plan, &[cycle, 1, 1000]);
            }
            for (edition, granule) in [(1, 15), (1, 16), (2, 16)] {
                compare_check(trial, edition, granule, &plan, &[cycle, 1, 1]);
            }
        }
    }
}

/// Whether a long plan is accepted costs the second program a frame times a cycle for each partition.
fn long_frames(trial: &mut Trial) {
    for case in trial.cases(120) {
        let rng = &mut trial.rng;
        let edition = editions::good(rng);
        let mut served = plans::of_sixteen(rng, edition);
        if case % 2 == 0 {
            plans::damage(rng, &mut served.plan, 16);
        }
        let granule = rng.pick(&[1, 1, 2, 4]);
        check_served(trial, &served, edition.number(), granule);
    }
}

/// What every stretch holds at least, or a thousandth more; with a granule it is rounded up past
/// that most often.
fn long_cycles(trial: &mut Trial) {
    for case in trial.cases(60) {
        let rng = &mut trial.rng;
        let plan = plans::in_runs(rng, 4096, 1);
        let cycle = [4096, 4095, rng.between(1, 4095)][case as usize % 3];
        let edition = editions::good(rng);
        let least = Service::new(edition, &plan).least(1, cycle as u32) as usize;
        let num = least * 1000 / cycle + rng.between(0, 1);
        let num = num.clamp(1, 1000) as u16;
        let granule = granules::up_to(rng, 1 + case as usize % 16);
        let parts = [cycle as u16, num, 1000];
        compare_check(trial, edition.number(), granule, &plan, &parts);
    }
}
