//! Texts with equal shortages, with stretches past the frame, in both editions, with numbers of each
//! width, and at the limits.

use second::editions::Edition;
use second::inputs::plans;
use second::limits::PERIOD;

use super::asked::{
    digits, judge, lines, naming, AT_THE_END, COLUMNS, EQUAL, LAST_TICK, LATER, PAST,
};
use crate::page::asked::until_it_fails;
use crate::page::shapes::far;
use crate::seen::Seen;
use crate::trial::Trial;
use crate::verdict::asked::{served, without_tasks, Input};

/// What the higher tasks take in a multiple of the frame is all that is served there: each such point
/// lacks the same, and the mark stands at the lowest alone.
pub fn equal_shortages(trial: &mut Trial) {
    let mut seen = Seen::default();
    for _ in trial.cases(4000) {
        let rng = &mut trial.rng;
        let longest = rng.pick(&[1, 4, 12]);
        let mut input = without_tasks(rng, 2, longest);
        let partition = rng.between(1, input.partitions());
        let frame = input.plan.len();
        let own = input.service().held(partition as u16, 0, frame as u32) as usize;
        let t = frame * rng.between(1, 3);
        let d = t * rng.between(2, 9) + rng.pick(&[0, 0, 1, t / 2]);
        let budget = rng.between(1, 9).min(d);
        let higher = [partition, own * (t / frame), t, t];
        let asked = [partition, budget, d, d + 5];
        let both = [higher, asked].concat();
        input.tasks = both.into_iter().map(|number| number as u16).collect();
        let words = naming(trial, 2);
        let text = judge(trial, words, &input.file(), &mut seen);
        let lines = lines(&text);
        let marked = lines.iter().filter(|line| line.marked);
        let marked: Vec<u64> = marked.map(|line| line.numbers[0]).collect();
        if !lines.is_empty() {
            trial.same((&input, text), marked, vec![t as u64]);
        }
    }
    seen.share(trial, &["fail", EQUAL], [3, 4]);
}

/// D beyond the frame, up to twelve frames: the stretches pass its end several times.
pub fn beyond_the_frame(trial: &mut Trial) {
    let mut seen = Seen::default();
    for _ in trial.cases(3000) {
        let mut input = far(&mut trial.rng);
        if until_it_fails(&mut input) {
            let words = naming(trial, input.listed());
            judge(trial, words, &input.file(), &mut seen);
        }
    }
    seen.share(trial, &["fail", PAST], [1, 2]);
    seen.share(trial, &[LATER], [1, 6]);
    seen.share(trial, &[LAST_TICK], [1, 100]);
}

/// One plan by both rules, turned to each start in turn: stretches that start at the frame's last
/// tick, that end there, and a tick later.
pub fn in_both_editions(trial: &mut Trial) {
    let mut seen = Seen::default();
    for _ in trial.cases(1500) {
        let Some(mut input) = super::failing(&mut trial.rng, 10, 12) else {
            continue;
        };
        // One tick of a cycle is served in edition 2 too, where any is.
        for part in input.parts.chunks_mut(3) {
            part.copy_from_slice(&[input.plan.len() as u16, 1, 1000]);
        }
        let words = naming(trial, input.listed());
        for _ in 0..input.plan.len() {
            for edition in [1, 2] {
                input.edition = edition;
                judge(trial, words, &input.file(), &mut seen);
            }
            input.plan.rotate_left(1);
        }
    }
    let kinds = ["fail", LATER, PAST, AT_THE_END];
    seen.share(trial, &kinds, [1, 2]);
    seen.share(trial, &[LAST_TICK], [1, 10]);
    seen.share(trial, &["refused 9"], [1, 10]);
}

/// Each column's numbers have from one digit up to as many as there can be: the demand of 127 higher
/// tasks, each released twice, has seven.
pub fn each_width(trial: &mut Trial) {
    let mut seen = Seen::default();
    for _ in trial.cases(4000) {
        let rng = &mut trial.rng;
        let mut input = served(rng, 0, 1);
        if rng.one_in(2) {
            (input.plan, input.parts) = (vec![1], vec![1, 1, 1]);
        }
        let higher = rng.pick(&[0, 1, 3, 12, 59, 99, 127]);
        let most = rng.pick(&[9, 99, 999, 4096]);
        let mut d = rng.between(1, most);
        let mut period = rng.between(d.div_ceil(20), 4096);
        if rng.one_in(4) {
            period = rng.between(3938, 4095);
            d = rng.between(period + 1, 4096);
        }
        let c = rng.pick(&[1, period / 2, period, period]).max(1);
        input.tasks = [1, c, period, period]
            .map(|number| number as u16)
            .repeat(higher);
        let c = rng.pick(&[1, d, d]);
        input
            .tasks
            .extend([1, c, d, 4096].map(|number| number as u16));
        let words = naming(trial, higher + 1);
        judge(trial, words, &input.file(), &mut seen);
    }
    seen.share(trial, &["fail"], [1, 2]);
    for (what, most) in COLUMNS.into_iter().zip([4, 7, 4, 7]) {
        for count in 1..=most {
            seen.share(trial, &[digits(what, count)], [1, 100]);
        }
    }
}

/// A table of 127 tasks, of 128, and of one too many.
pub fn many_tasks(trial: &mut Trial) {
    let mut seen = Seen::default();
    for case in trial.cases(900) {
        let count = [127, 128, 129][case as usize % 3];
        let mut input = served(&mut trial.rng, 0, 1);
        let partitions = input.partitions();
        for _ in 0..count {
            let owner = trial.rng.between(1, partitions) as u16;
            let period = trial.rng.between(20, 300) as u16;
            input.tasks.extend([owner, 1, period, period]);
        }
        let place = trial.rng.pick(&[0, 1, 60, 126, 127, 128, 128, 129]);
        let words = naming(trial, place);
        judge(trial, words, &input.file(), &mut seen);
    }
    seen.share(trial, &["pass", "fail", "refused 3", "refused 7"], [1, 20]);
}

/// The longest frame, and in it one run, behind which the worst stretches up to D start: starts of one
/// to four digits, and ends in the next frame.
pub fn long_frames(trial: &mut Trial) {
    for behind in trial.each([0, 7, 42, 998, 999, 1000, 4090, 4094, 4095]) {
        for edition in Edition::BOTH {
            let rng = &mut trial.rng;
            let length = rng.between(8, 900);
            let start = (behind + 4096 - length) % 4096;
            // From so many starts on D ticks hold none, and all of them lie in the frame.
            let starts = rng.between(1, 4096 - behind).min(2000);
            let switch = edition.number() as usize - 1;
            let d = 4096 - length + switch + 1 - starts;
            let mut input = Input {
                edition: edition.number(),
                granule: 1,
                plan: plans::one_run(4096, start, length, 0),
                parts: vec![4096, 1, 1000],
                tasks: vec![1, 1, 1024, 1024],
            };
            let task = [1, rng.between(1, d), d, 4096];
            input.tasks.extend(task.map(|number| number as u16));
            let words = naming(trial, 2);
            let text = judge(trial, words, &input.file(), &mut Seen::default());
            let last = lines(&text).pop();
            let last = last.map(|line| (line.numbers[2], line.start, line.end));
            let wanted = (0, behind as u64, (behind + d - 1) as u64);
            trial.same((&input, text), last, Some(wanted));
        }
    }
}

/// A period of one tick, and deadlines up to the longest: up to 4,096 lines.
pub fn every_tick_a_point(trial: &mut Trial) {
    for case in trial.cases(24) {
        let rng = &mut trial.rng;
        let mut input = without_tasks(rng, 1, 8);
        let d = match case % 4 {
            0 => PERIOD as usize,
            1 => PERIOD as usize - 1,
            2 => rng.between(100, 1100),
            _ => rng.between(1000, 4000),
        };
        let c = rng.between(1, 100).min(d) as u16;
        input.tasks = vec![1, 1, 1, 1, 1, c, d as u16, 4096];
        let words = naming(trial, 2);
        let text = judge(trial, words, &input.file(), &mut Seen::default());
        trial.same(&input, lines(&text).len(), d);
    }
}
