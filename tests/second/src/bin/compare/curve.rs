//! The curve of least service: the library against the second program.

use second::inputs::faults::EDGES;
use second::inputs::{editions, plans, tables};
use second::rng::Rng;
use second::{curve, plan, Answer};

use crate::batch::Entry;
use crate::seen::{kind, Seen};
use crate::service::compare_least;
use crate::trial::{Named, Trial};

pub const TRIALS: &[Named] = &[
    ("curve, all small", all_small),
    ("curve, every tick own or not", every_tick_own_or_not),
    ("curve, one owner", one_owner),
    ("curve, one run", one_run),
    ("curve, owners that repeat", owners_that_repeat),
    ("curve, every start of the frame", every_start_of_the_frame),
    ("curve, any plan", any_plan),
    ("curve, long runs", long_runs),
    ("curve, serving and damaged", serving_and_damaged),
    ("curve, any owner", any_owner),
    ("curve, least beside it", least_beside_it),
    ("curve, every length of the list", every_length_of_the_list),
    ("curve, n far past the list", n_far_past_the_list),
    ("curve, n past 16 bits", n_past_16_bits),
    ("curve, long frames", long_frames),
    ("curve, past the longest frame", past_the_longest_frame),
];

/// What stands behind the plan and the list is left alone.
const BEHIND: usize = 3;

/// What stands in a list before: nothing, all bits, or numbers that all differ.
pub fn before(rng: &mut Rng, numbers: usize) -> Vec<u32> {
    match rng.between(0, 3) {
        0 => vec![0; numbers],
        1 => vec![u32::MAX; numbers],
        _ => (0xA5C3_0000..).take(numbers).collect(),
    }
}

/// Lends a list of so many numbers to both programs; the answer, and what then stands in it.
pub fn compare(
    trial: &mut Trial,
    edition: u64,
    plan: &[u16],
    p: u16,
    n: u32,
    numbers: usize,
) -> (Answer, Vec<u32>) {
    let before = before(&mut trial.rng, numbers + BEHIND);
    let mut after = before.clone();
    let answer = curve::curve(edition, plan, p, n, &mut after[..numbers]);
    let ticks = [plan, &[p; BEHIND]].concat();
    let call = trial.call(Entry::Curve, &[edition, p.into(), n.into()], answer);
    let call = call.writes(plan.len(), &ticks, &ticks);
    call.writes(numbers, &before, &after);
    (answer, after)
}

/// Lends a list that is exact; the curve.
pub fn compare_exact(trial: &mut Trial, edition: u64, plan: &[u16], p: u16, n: usize) -> Vec<u32> {
    let (answer, mut list) = compare(trial, edition, plan, p, n as u32, n + 1);
    trial.same((edition, plan, p, n), answer.number, 0);
    list.truncate(n + 1);
    list
}

/// A list that is exact has least of each t, counted anew; in both editions.
pub fn compare_counted(trial: &mut Trial, plan: &[u16], p: u16, n: usize) {
    for edition in [1, 2] {
        let list = compare_exact(trial, edition, plan, p, n);
        for (t, number) in (0..).zip(list) {
            let counted = plan::least(edition, plan, p, t).first;
            trial.same((edition, plan, p, t), u64::from(number), counted);
        }
    }
}

/// An edition that is good.
fn some_edition(trial: &mut Trial) -> u64 {
    editions::good(&mut trial.rng).number()
}

fn all_small(trial: &mut Trial) {
    for frame in trial.each(0..=3) {
        for plan in plans::every(frame, 4) {
            for p in 0..=3 {
                for n in 0..=3 * frame.max(1) {
                    let needed = n as usize + 1;
                    compare_counted(trial, &plan, p, n as usize);
                    for numbers in [0, needed - 1, needed + 1, needed + 4] {
                        for edition in 1..=3 {
                            compare(trial, edition, &plan, p, n, numbers);
                        }
                    }
                }
            }
        }
    }
}

fn every_tick_own_or_not(trial: &mut Trial) {
    for frame in trial.each(4..=10) {
        for plan in plans::every(frame, 2) {
            for p in [0, 1] {
                compare_counted(trial, &plan, p, 3 * frame as usize);
            }
        }
    }
}

/// Plans owned wholly by the partition, by nobody, or by others.
fn one_owner(trial: &mut Trial) {
    for frame in trial.each([0, 1, 2, 3, 4, 7, 8, 63, 64, 100]) {
        for owner in [0, 1, 2, 16, 65_535] {
            for p in [0, 1, 2, 3, 255, 65_535] {
                for n in [0, 1, frame, frame + 1, 3 * frame + 2] {
                    for edition in [1, 2] {
                        compare_exact(trial, edition, &vec![owner; frame], p, n);
                    }
                }
            }
        }
    }
}

/// One run of every length in every place, and the ticks around it.
fn one_run(trial: &mut Trial) {
    for frame in trial.each(1..=14) {
        for length in 0..=frame {
            for start in 0..frame {
                let other = trial.rng.pick(&[0, 2]);
                let plan = plans::one_run(frame, start, length, other);
                compare_counted(trial, &plan, 1, 3 * frame + 1);
                let edition = some_edition(trial);
                compare_exact(trial, edition, &plan, other, 2 * frame);
            }
        }
    }
}

/// 1 0 1 0, 1 2 1 2 and others, in frames that end within them too: the ends then join.
fn owners_that_repeat(trial: &mut Trial) {
    let patterns: [&[u16]; 10] = [
        &[1, 0],
        &[0, 1],
        &[1, 2],
        &[2, 1],
        &[1, 0, 0],
        &[1, 1, 0],
        &[0, 0, 1],
        &[1, 2, 3],
        &[1, 1, 2, 2],
        &[0, 1, 0, 2],
    ];
    for owners in trial.each(patterns) {
        for frame in 1..=24 {
            let plan = plans::repeating(owners, frame);
            for p in 0..=3 {
                compare_counted(trial, &plan, p, 3 * frame);
            }
        }
    }
}

fn some_plan(rng: &mut Rng, ticks: usize) -> Vec<u16> {
    match rng.between(0, 2) {
        0 => plans::scattered(rng, ticks, 3),
        1 => plans::in_runs(rng, ticks, 3),
        _ => plans::in_runs_up_to(rng, ticks, 2, ticks),
    }
}

/// The repeated plan has one curve, wherever its frame starts.
fn every_start_of_the_frame(trial: &mut Trial) {
    for _ in trial.cases(600) {
        let ticks = trial.rng.between(1, 16);
        let mut plan = some_plan(&mut trial.rng, ticks);
        let p = trial.rng.between(0, 2) as u16;
        let n = trial.rng.between(ticks, 3 * ticks);
        let edition = some_edition(trial);
        let wanted = compare_exact(trial, edition, &plan, p, n);
        for _ in 1..ticks {
            plan.rotate_left(1);
            let found = compare_exact(trial, edition, &plan, p, n);
            trial.same((edition, &plan, p, n), &found, &wanted);
        }
    }
}

/// Up to three frames, and about their ends.
fn some_n(rng: &mut Rng, frame: usize) -> usize {
    match rng.between(0, 7) {
        0 => 0,
        1 => frame.saturating_sub(1),
        2 => frame,
        3 => frame + 1,
        4 => 2 * frame + 1,
        _ => rng.between(0, 3 * frame),
    }
}

/// A list that is empty, too short, exact, or longer.
fn some_numbers(rng: &mut Rng, needed: usize) -> usize {
    match rng.between(0, 9) {
        0 => 0,
        1 => needed - 1,
        2 => rng.between(0, needed),
        3..=5 => needed + rng.between(1, 9),
        _ => needed,
    }
}

fn any_plan(trial: &mut Trial) {
    let mut seen = Seen::default();
    for _ in trial.cases(20_000) {
        let rng = &mut trial.rng;
        let longest = rng.pick(&[1, 3, 12, 40, 150]);
        let ticks = rng.between(0, longest);
        let plan = some_plan(rng, ticks);
        let p = rng.pick(&[0, 1, 1, 1, 2, 3, 4, 65_535]);
        let n = some_n(rng, ticks);
        let numbers = some_numbers(rng, n + 1);
        let edition = editions::some(rng);
        let (answer, _) = compare(trial, edition, &plan, p, n as u32, numbers);
        let longer = if numbers > n + 1 { ", longer" } else { "" };
        seen.count(kind(answer) + longer);
    }
    seen.share(trial, &["0", "0, longer", "12"], [1, 8]);
    seen.share(trial, &["2", "2, longer"], [1, 200]);
}

/// Runs up to the frame's length.
fn long_runs(trial: &mut Trial) {
    for _ in trial.cases(300) {
        let rng = &mut trial.rng;
        let ticks = rng.between(200, 700);
        let longest = rng.pick(&[20, 100, 600]);
        let plan = plans::in_runs_up_to(rng, ticks, 1, longest);
        let n = some_n(rng, ticks);
        let p = rng.between(0, 1) as u16;
        let edition = some_edition(trial);
        compare_exact(trial, edition, &plan, p, n);
    }
}

fn serving_and_damaged(trial: &mut Trial) {
    for _ in trial.cases(3000) {
        let rng = &mut trial.rng;
        let longest = rng.between(1, 40);
        let count = rng.pick(&[1, 2, 3, 5, 16]);
        let edition = editions::good(rng);
        let plans::Served {
            mut plan, parts, ..
        } = plans::served(rng, edition, 1, count, longest);
        let partitions = parts.len() / 3;
        let p = rng.between(0, partitions + 1) as u16;
        let n = some_n(rng, plan.len());
        compare_exact(trial, edition.number(), &plan, p, n);
        plans::damage(&mut trial.rng, &mut plan, partitions);
        compare_exact(trial, edition.number(), &plan, p, n);
    }
}

/// Owners of all 16 bits, and partitions that are some of them, or nearly.
fn any_owner(trial: &mut Trial) {
    for _ in trial.cases(4000) {
        let rng = &mut trial.rng;
        let owners = [rng.pick(&EDGES), rng.number() as u16, 1];
        let [ticks, n] = [rng.between(1, 12), rng.between(0, 30)];
        let plan: Vec<u16> = (0..ticks).map(|_| rng.pick(&owners)).collect();
        let owner = rng.pick(&owners);
        let edition = some_edition(trial);
        for p in [owner, owner ^ 256, owner ^ 32_768, !owner, 65_535, 0] {
            compare_exact(trial, edition, &plan, p, n);
        }
    }
}

/// The other entry says the same of each t.
fn least_beside_it(trial: &mut Trial) {
    for _ in trial.cases(500) {
        let ticks = trial.rng.between(0, 10);
        let plan = some_plan(&mut trial.rng, ticks);
        let p = trial.rng.between(0, 3) as u16;
        let n = some_n(&mut trial.rng, ticks);
        let edition = some_edition(trial);
        for (t, number) in (0..).zip(compare_exact(trial, edition, &plan, p, n)) {
            let least = compare_least(trial, edition, &plan, p, t);
            trial.same((edition, &plan, p, t), least.first, number.into());
        }
    }
}

fn every_length_of_the_list(trial: &mut Trial) {
    for n in trial.each(0..=20) {
        for plan in [&[][..], &[1], &[1, 0, 2], &[0, 1, 1, 1, 2, 1, 1]] {
            for numbers in 0..=n as usize + 6 {
                for edition in 1..=3 {
                    compare(trial, edition, plan, 1, n, numbers);
                }
            }
        }
    }
}

/// n + 1 has more bits than the list's length, or than n.
fn n_far_past_the_list(trial: &mut Trial) {
    let wide = [16, 17, 24, 31, 32].map(|bits| 1 << bits);
    for n in trial.each(wide.map(|wide: u64| wide - 1)) {
        for n in [n - 1, n, n + 1, n + 5].map(|n| n.min(u32::MAX.into()) as u32) {
            for plan in [&[][..], &[1], &[1, 0, 0], &[1; 4097]] {
                for numbers in [0, 1, 2, 5, 6, 7, 100] {
                    for (edition, number) in [(1, 12), (2, 12), (3, 2)] {
                        let (answer, _) = compare(trial, edition, plan, 1, n, numbers);
                        let refused = Answer::refused(number);
                        trial.same((edition, n, numbers), answer, refused);
                    }
                }
            }
        }
    }
}

/// Numbers that don't fit into 16 bits, nor does how many they are; and a long list for a few.
fn n_past_16_bits(trial: &mut Trial) {
    for n in trial.each([65_534, 65_535, 65_536, 70_000]) {
        for plan in [&[][..], &[1], &[1, 0], &[0, 1, 1, 1, 1]] {
            for p in [0, 1] {
                let edition = some_edition(trial);
                compare_exact(trial, edition, plan, p, n);
                compare(trial, edition, plan, p, n as u32, n + 4);
                compare(trial, edition, plan, p, n as u32, n);
                compare(trial, edition, plan, p, 3, n);
            }
        }
    }
}

fn some_long_plan(rng: &mut Rng, case: u64, ticks: usize) -> Vec<u16> {
    let parts = tables::sixteen(rng);
    let [start, length] = [0, 1].map(|_| rng.between(0, ticks - 1));
    match case % 6 {
        0 => plans::in_runs(rng, ticks, 2),
        1 => plans::scattered(rng, ticks, 2),
        2 => plans::in_runs_up_to(rng, ticks, 1, ticks / 3),
        3 => plans::one_run(ticks, start, length, 0),
        4 => plans::repeating(&[1, 2], ticks),
        _ => {
            let short = plans::serving(rng, 1, &parts, 128).unwrap_or_default();
            plans::repeating(&short, ticks)
        }
    }
}

/// Frames at the limit, and n up to it, about it, and past two frames.
fn long_frames(trial: &mut Trial) {
    for case in trial.cases(30) {
        let ticks = [4096, 4095][case as usize / 6 % 2];
        let plan = some_long_plan(&mut trial.rng, case, ticks);
        let p = trial.rng.pick(&[0, 1, 1]);
        let n = [4096, 4095, 4097, 8193, 1000][case as usize % 5];
        let edition = some_edition(trial);
        compare_exact(trial, edition, &plan, p, n);
    }
}

/// Frames at the limit and past it, which no table's plan may be. All ticks but one are own, so only
/// a few starts hold least.
fn past_the_longest_frame(trial: &mut Trial) {
    for ticks in trial.each([4095, 4096, 4097, 5000, 65_535, 65_536, 65_537, 70_000]) {
        let any = trial.rng.between(0, ticks - 1);
        for gap in [0, 1, ticks / 2, ticks - 2, ticks - 1, any] {
            let plan = plans::one_run(ticks, gap + 1, ticks - 1, 0);
            let edition = some_edition(trial);
            compare_exact(trial, edition, &plan, 1, 9);
            compare_exact(trial, edition, &plan, 0, 3);
        }
        for n in [0, 1, 60] {
            let plan = some_plan(&mut trial.rng, ticks);
            let edition = some_edition(trial);
            compare_exact(trial, edition, &plan, 1, n);
        }
    }
}
