//! Deadlines, periods and orders of tasks, in plans of one run, of runs of one tick and of others:
//! both engines, and the listing of all.

use second::inputs::{plans, tasks};
use second::records::{self, Partition};
use second::rng::Rng;

use super::asked::{judge, judge_listed, Input, Judged, BELOW, PAST};
use crate::listing;
use crate::seen::Seen;
use crate::trial::Trial;

/// A plan of one of several shapes, a table that it serves, and no tasks.
fn of_some_shape(rng: &mut Rng, longest: usize) -> Input {
    Input::from(plans::of_some_shape(rng, longest))
}

/// One that serves at least two partitions.
fn of_several(rng: &mut Rng, longest: usize) -> Input {
    loop {
        let input = of_some_shape(rng, longest);
        if input.partitions() > 1 {
            return input;
        }
    }
}

/// Adds a task of a partition with this deadline and period.
fn add(rng: &mut Rng, input: &mut Input, partition: usize, d: usize, t: usize) {
    tasks::add(rng, &input.service(), &mut input.tasks, [partition, d, t]);
}

const ONE_RUN: &str = "one run";
const ONE_TICK_EACH: &str = "runs of one tick";
const NO_MORE: &str = "no tick beyond a share";
const PLANS: [&str; 3] = [ONE_RUN, ONE_TICK_EACH, NO_MORE];

/// Whether some partition's service ticks in the frame are all wanted.
fn no_more(input: &Input) -> bool {
    let partitions = records::partitions(&input.parts).unwrap_or_default();
    let (service, frame) = (input.service(), input.plan.len());
    let wanted = |(p, partition): (u16, &Partition)| {
        let own = service.held(p, 0, frame as u32);
        own * partition.m() as u64 == partition.wants(input.granule) * frame as u64
    };
    (1..).zip(&partitions).any(wanted)
}

fn note_plan(seen: &mut Seen, input: &Input) {
    let runs = input.plan.chunk_by(|one, next| one == next).count();
    let frame = input.plan.len();
    let is = [runs == 1, runs == frame, no_more(input)];
    for (_, kind) in is.iter().zip(PLANS).filter(|(is, _)| **is && frame > 1) {
        seen.count(kind.to_string());
    }
}

/// Deadlines of one tick, about the frame, and far beyond it.
pub fn deadlines_and_the_frame(trial: &mut Trial) {
    let mut seen = Seen::default();
    for case in trial.cases(2500) {
        let rng = &mut trial.rng;
        let longest = rng.pick(&[1, 4, 12, 40]);
        let mut input = of_some_shape(rng, longest);
        for _ in 0..rng.between(1, 5) {
            let partition = rng.between(1, input.partitions());
            let d = match case % 250 {
                0 => rng.between(2000, 4096),
                _ => tasks::deadline(rng, input.plan.len()),
            };
            let t = tasks::period(rng, d);
            add(rng, &mut input, partition, d, t);
        }
        note_plan(&mut seen, &input);
        judge_listed(trial, &input, &mut seen);
    }
    seen.share(trial, &["pass", "fail", PAST], [1, 5]);
    seen.share(trial, &[BELOW], [1, 10]);
    // Runs of one tick serve nobody in edition 2.
    seen.share(trial, &PLANS, [1, 20]);
}

const PRIMES: [usize; 14] = [2, 3, 5, 7, 11, 13, 17, 19, 23, 29, 31, 37, 41, 43];

/// Equal periods, periods without a common divisor, or any with one of a single tick.
fn some_periods(rng: &mut Rng, case: u64) -> Vec<usize> {
    let count = rng.between(2, 10);
    let base = rng.between(2, 60);
    let mut periods = match case % 3 {
        0 => vec![base; count],
        1 => PRIMES.to_vec(),
        _ => (0..count).map(|_| rng.between(2, base)).collect(),
    };
    rng.shuffle(&mut periods);
    periods.truncate(count);
    if case % 3 == 2 {
        periods[rng.between(0, count - 1)] = 1;
    }
    periods
}

/// Many tasks of one partition; sometimes one of them takes its whole period: C = D = T.
pub fn many_of_one_partition(trial: &mut Trial) {
    let mut seen = Seen::default();
    for case in trial.cases(2500) {
        let rng = &mut trial.rng;
        let mut input = of_some_shape(rng, 30);
        let partition = rng.between(1, input.partitions());
        for t in some_periods(rng, case) {
            let shorter = rng.between(1, t);
            let d = rng.pick(&[t, t, shorter]);
            add(rng, &mut input, partition, d, t);
        }
        if rng.one_in(4) {
            let place = rng.between(1, input.listed());
            let task = input.task(place);
            let t = task[3];
            task[1..].fill(t);
        }
        judge_listed(trial, &input, &mut seen);
    }
    seen.share(trial, &["pass", "fail"], [1, 2]);
    seen.share(trial, &[BELOW], [1, 10]);
}

/// Tasks of some partitions in any order, none of others; often the last is of the first partition.
pub fn interleaved(trial: &mut Trial) {
    let mut seen = Seen::default();
    for case in trial.cases(1500) {
        let rng = &mut trial.rng;
        let mut input = of_several(rng, 24);
        let most = if case % 50 == 0 { 127 } else { 10 };
        let owners: Vec<usize> = (1..=input.partitions()).collect();
        let with_tasks = [0, 1].map(|_| rng.pick(&owners));
        for _ in 0..rng.between(most / 2, most) {
            let partition = rng.pick(&with_tasks);
            let d = rng.between(1, 90);
            let t = tasks::period(rng, d);
            add(rng, &mut input, partition, d, t);
        }
        let last = rng.pick(&[1, 1, input.partitions()]);
        let d = tasks::deadline(rng, input.plan.len());
        add(rng, &mut input, last, d, d);
        judge_listed(trial, &input, &mut seen);
    }
    seen.share(trial, &["pass", "fail"], [1, 1]);
    seen.share(trial, &[BELOW], [1, 5]);
}

/// Deadlines of a few ticks and of hundreds in one partition: the longest first, last, or between.
pub fn deadlines_that_differ(trial: &mut Trial) {
    let mut seen = Seen::default();
    for case in trial.cases(1500) {
        let rng = &mut trial.rng;
        let mut input = of_some_shape(rng, 24);
        let frame = input.plan.len();
        let mut deadlines: Vec<usize> = (0..rng.between(2, 6))
            .map(|_| rng.pick(&[1, frame, 3 * frame, 10 * frame, 400]))
            .collect();
        match case % 3 {
            0 => deadlines.sort(),
            1 => deadlines.sort_by(|one, next| next.cmp(one)),
            _ => {}
        }
        let partition = rng.between(1, input.partitions());
        for d in deadlines {
            let other = rng.between(1, input.partitions());
            let t = rng.between(d.max(100), 1000);
            let owner = rng.pick(&[partition, partition, other]);
            add(rng, &mut input, owner, d, t);
        }
        judge_listed(trial, &input, &mut seen);
    }
    seen.share(trial, &["pass", "fail"], [1, 2]);
    seen.share(trial, &[BELOW, PAST], [1, 5]);
}

const AT_D: &str = "tick at D";
const BEFORE_D: &str = "tick at D - 1";
const AT_A_MULTIPLE: &str = "tick at a multiple below D";
const D_BEHIND: &str = "D behind a multiple";

/// Where the last task's tick and deadline lie, all tasks being of one partition. Right behind a
/// multiple of a higher period demand has risen by more than least can, so no tick lies there.
fn note_tick(trial: &Trial, seen: &mut Seen, input: &Input, judged: Judged) {
    let Judged::Pass { tick, .. } = judged else {
        return;
    };
    let (higher, last) = input.tasks.split_at(input.tasks.len() - 4);
    let d = u64::from(last[2]);
    let multiple = |t: u64| {
        t > 0
            && higher
                .chunks(4)
                .any(|task| t.is_multiple_of(task[3].into()))
    };
    trial.same((input, tick), multiple(tick - 1), false);
    for (lies, kind) in [
        (tick == d, AT_D),
        (tick + 1 == d, BEFORE_D),
        (tick < d && multiple(tick), AT_A_MULTIPLE),
        (multiple(d - 1), D_BEHIND),
    ] {
        if lies {
            seen.count(kind.to_string());
        }
    }
}

/// The last task with D at its tick, at the multiples of a higher period about it and right behind
/// them; and with a higher period at its tick and beside it.
pub fn about_the_tick(trial: &mut Trial) {
    let mut seen = Seen::default();
    for _ in trial.cases(2000) {
        let rng = &mut trial.rng;
        let mut input = of_some_shape(rng, 20);
        let partition = rng.between(1, input.partitions());
        for _ in 0..rng.between(1, 3) {
            let t = rng.between(4, 60);
            add(rng, &mut input, partition, t, t);
        }
        add(rng, &mut input, partition, 150, 400);
        let place = input.listed();
        if let Judged::Pass { tick, .. } = judge(trial, &input, place, &mut seen) {
            let tick = tick as u16;
            let beside = [tick - 1, tick, tick + 1];
            let period = input.task(1)[3];
            let multiple = tick / period * period;
            let next = multiple + period;
            for d in [&beside[..], &[multiple, multiple + 1, next, next + 1]].concat() {
                deadline_at(trial, input.clone(), d, &mut seen);
            }
            for t in beside {
                higher_period_at(trial, input.clone(), t, &mut seen);
            }
        }
    }
    let kinds = [AT_D, BEFORE_D, AT_A_MULTIPLE, D_BEHIND];
    seen.share(trial, &kinds, [1, 5]);
    seen.share(trial, &[BELOW, "fail"], [1, 5]);
}

/// The last task with another deadline, where its budget lets it.
fn deadline_at(trial: &mut Trial, mut input: Input, d: u16, seen: &mut Seen) {
    let last = input.listed();
    let task = input.task(last);
    task[2] = d.max(task[1]);
    let judged = judge(trial, &input, last, seen);
    note_tick(trial, seen, &input, judged);
    listing::compare(trial, &input.file());
}

/// The first task with another period, and no more than that for budget and deadline.
fn higher_period_at(trial: &mut Trial, mut input: Input, t: u16, seen: &mut Seen) {
    let t = t.max(1);
    let task = input.task(1);
    task[3] = t;
    task[2] = task[2].min(t);
    task[1] = task[1].min(t);
    let judged = judge(trial, &input, input.listed(), seen);
    note_tick(trial, seen, &input, judged);
    listing::compare(trial, &input.file());
}
