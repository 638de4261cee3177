//! Where the plain engine's ticks lie: at the ends of what a task may ask, and away from the points.

use second::inputs::{editions, granules, tables};
use second::rng::Rng;

use super::asked::{
    compare, judge, judge_all, served, without_tasks, Input, Judged, BELOW, PAST, WELL_BELOW,
};
use crate::seen::Seen;
use crate::trial::Trial;

/// A plan that is all its own for one partition, or nearly, or one that serves some.
fn nearly_own(rng: &mut Rng, tasks: usize) -> Input {
    if rng.one_in(3) {
        return served(rng, tasks, 30);
    }
    let frame = rng.between(1, 24);
    let mut plan = vec![1; frame];
    // An idle tick costs a switch tick too.
    if frame > 2 && rng.one_in(3) {
        plan[rng.between(0, frame - 1)] = 0;
    }
    Input {
        edition: editions::good(rng).number(),
        granule: granules::up_to(rng, frame.saturating_sub(2).max(1)),
        plan,
        parts: vec![frame as u16, 1, frame as u16],
        tasks: tables::tasks(rng, tasks, 1, 30),
    }
}

/// D = C: a task passes, at D, exactly when the plan is all its own and no task is higher.
fn no_slack(trial: &mut Trial, mut input: Input, place: usize, c: u16, seen: &mut Seen) {
    let (higher, asked) = input.tasks.split_at_mut(4 * (place - 1));
    let own = asked[0];
    asked[1..3].fill(c);
    let alone = higher.chunks(4).all(|task| task[0] != own);
    let wanted = if alone && input.plan.iter().all(|owner| *owner == own) {
        let [point, tick] = [c.into(); 2];
        Judged::Pass { point, tick }
    } else {
        Judged::Fail
    };
    let judged = judge(trial, &input, place, seen);
    trial.same((&input, place), judged, wanted);
}

/// Budgets are told from the task's period.
fn all_without_slack(trial: &mut Trial, budget: fn(&mut Rng, u16) -> u16) {
    let mut seen = Seen::default();
    for _ in trial.cases(4000) {
        let count = trial.rng.pick(&[1, 1, 2, 3]);
        let input = nearly_own(&mut trial.rng, count);
        let place = trial.rng.between(1, count);
        let c = budget(&mut trial.rng, input.tasks[4 * place - 1]);
        no_slack(trial, input, place, c, &mut seen);
    }
    seen.share(trial, &["pass", "fail"], [1, 5]);
}

pub fn deadline_1(trial: &mut Trial) {
    all_without_slack(trial, |_, _| 1);
}

pub fn deadline_c(trial: &mut Trial) {
    all_without_slack(trial, |rng, period| rng.between(1, period.into()) as u16);
}

/// F 1: the tick is a partition's, idle, or out of the table; one partition at most can be served.
pub fn one_tick(trial: &mut Trial) {
    let mut seen = Seen::default();
    for _ in trial.cases(5000) {
        let rng = &mut trial.rng;
        let partitions = rng.pick(&[1, 1, 1, 1, 2]);
        let tasks = rng.between(0, 5);
        let period = rng.pick(&[1, 4, 20, 60]);
        let input = Input {
            edition: editions::some(rng),
            granule: granules::or_other(rng, 1),
            plan: vec![rng.pick(&[1, 1, 1, 1, 0, 2])],
            parts: tables::partitions(rng, partitions, 1),
            tasks: tables::tasks(rng, tasks, partitions, period),
        };
        judge_all(trial, &input, &mut seen);
    }
    seen.share(trial, &["pass", "9"], [1, 2]);
    seen.share(trial, &["fail", BELOW, "8"], [1, 4]);
}

/// A plan that serves at least two partitions.
fn of_several(rng: &mut Rng) -> Input {
    loop {
        let longest = rng.between(2, 24);
        let input = without_tasks(rng, 4, longest);
        if input.partitions() > 1 {
            return input;
        }
    }
}

/// Tasks of other partitions that ask for all time, between the higher tasks and the asked one.
/// Taking them out changes nothing.
pub fn others_between(trial: &mut Trial) {
    let mut seen = Seen::default();
    for _ in trial.cases(5000) {
        let rng = &mut trial.rng;
        let mut input = of_several(rng);
        let own = rng.between(1, input.partitions()) as u16;
        let other = if own == 1 { 2 } else { own - 1 };
        let mut alone = input.clone();
        for _ in 0..rng.between(1, 4) {
            let mut task = tables::tasks(rng, 1, 1, 80);
            task[0] = own;
            let t = rng.between(1, 40) as u16;
            input.tasks.extend([other, t, t, t]);
            input.tasks.extend(&task);
            alone.tasks.extend(&task);
        }
        let judged = judge(trial, &input, input.listed(), &mut seen);
        let wanted = compare(trial, &alone, alone.listed());
        trial.same((&input, "others taken out"), judged, wanted);
    }
    seen.share(trial, &["pass", "fail"], [1, 5]);
    seen.share(trial, &[BELOW], [1, 10]);
}

/// Small budgets, long periods and late deadlines: the points are far apart.
pub fn below_the_point(trial: &mut Trial) {
    let mut seen = Seen::default();
    for _ in trial.cases(4000) {
        let rng = &mut trial.rng;
        let longest = rng.between(1, 24);
        let mut input = without_tasks(rng, 3, longest);
        let own = rng.between(1, input.partitions());
        for _ in 0..rng.between(1, 4) {
            let t = rng.between(60, 300);
            let d = rng.between(60, t);
            let c = rng.between(1, 3);
            let task = [own, c, d, t].map(|number| number as u16);
            input.tasks.extend(task);
        }
        judge(trial, &input, input.listed(), &mut seen);
    }
    seen.share(trial, &[BELOW, WELL_BELOW], [3, 4]);
}

/// D beyond the frame, up to twelve frames: the stretches pass its end several times.
pub fn beyond_the_frame(trial: &mut Trial) {
    let mut seen = Seen::default();
    for _ in trial.cases(4000) {
        let rng = &mut trial.rng;
        let longest = rng.between(1, 16);
        let mut input = without_tasks(rng, 3, longest);
        let [own, frame] = [rng.between(1, input.partitions()), input.plan.len()];
        for _ in 0..rng.between(1, 3) {
            let d = rng.between(frame + 1, 12 * frame);
            let t = rng.between(d, 13 * frame);
            let c = rng.between(1, d / 3);
            let task = [own, c, d, t].map(|number| number as u16);
            input.tasks.extend(task);
        }
        judge(trial, &input, input.listed(), &mut seen);
    }
    seen.share(trial, &[PAST, "fail"], [1, 8]);
    seen.share(trial, &[BELOW], [1, 8]);
}
