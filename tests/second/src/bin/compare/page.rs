//! The page for the supplier: the library against the second program, and against its verdict, its
//! least service and what it holds.

pub mod asked;
mod refused;
pub mod shapes;

use second::inputs::{editions, granules, plans, tasks};
use second::page::ROW;
use second::rng::Rng;

use crate::seen::Seen;
use crate::service::{compare_held, compare_least};
use crate::trial::{Named, Trial};
use crate::verdict::asked::{ask, served, without_tasks, Input, VERDICT};
use crate::verdict::every_task;
use asked::{
    exact, judge, judge_all, note_starts, page_in, points, until_it_fails, Page, Paged, EQUAL,
    LAST_TICK, LATER, LONGER, MANY, NAMED_LAST, PAST, SEVERAL, WITHIN, WORST_TWICE,
};

pub const TRIALS: &[Named] = &[
    ("page, all small", all_small),
    ("page, small", small),
    ("page, a tick too many", a_tick_too_many),
    ("page, that much less", that_much_less),
    ("page, many points", many_points),
    ("page, equal shortages", equal_shortages),
    ("page, least and held beside it", least_and_held_beside_it),
    ("page, every start of the frame", shapes::every_start),
    ("page, owners that repeat", shapes::owners_that_repeat),
    ("page, F 1", shapes::one_tick),
    ("page, D beyond the frame", shapes::beyond_the_frame),
    ("page, others between", shapes::others_between),
    ("page, in both editions", shapes::in_both_editions),
    ("page, with each granule", shapes::with_each_granule),
    ("page, faults", refused::faults),
    ("page, 2 to 12 in their order", refused::in_their_order),
    (
        "page, every length of the list",
        refused::every_length_of_the_list,
    ),
    ("page, many tasks", shapes::many_tasks),
    ("page, demand past 16 bits", shapes::demand_past_16_bits),
    ("page, every tick a point", shapes::every_tick_a_point),
    ("page, long frames", shapes::long_frames),
];

/// Every task of a period up to five, alone and behind every other, in every plan of up to four
/// ticks.
fn all_small(trial: &mut Trial) {
    let tasks = every_task();
    let mut seen = Seen::default();
    for plan in trial.each((1..=4).flat_map(|frame| plans::every(frame, 2))) {
        for higher in [&[Vec::new()], &tasks[..]].concat() {
            for task in &tasks {
                let frame = plan.len() as u16;
                let own = plan.iter().filter(|owner| **owner == 1).count();
                let input = Input {
                    edition: editions::some(&mut trial.rng),
                    granule: granules::up_to(&mut trial.rng, own.max(1)),
                    plan: plan.clone(),
                    parts: vec![frame, 1, frame],
                    tasks: [&higher[..], task].concat(),
                };
                judge(trial, &input, input.listed(), &mut seen);
            }
        }
    }
}

fn small(trial: &mut Trial) {
    let mut seen = Seen::default();
    for _ in trial.cases(15_000) {
        let tasks = trial.rng.between(0, 6);
        let period = trial.rng.pick(&[6, 20, 60, 200]);
        let input = served(&mut trial.rng, tasks, period);
        judge_all(trial, &input, &mut seen);
    }
    seen.share(trial, &["pass", "fail", SEVERAL, LATER], [1, 4]);
    seen.share(trial, &["12", LONGER, EQUAL, PAST], [1, 10]);
    seen.share(trial, &[WITHIN, NAMED_LAST, LAST_TICK], [1, 40]);
}

/// A plan of some shape, and tasks of one partition with these periods; the last has this deadline.
pub fn of_one_partition(rng: &mut Rng, longest: usize, periods: &[usize], d: usize) -> Input {
    let mut input = Input::from(plans::of_some_shape(rng, longest));
    let partition = rng.between(1, input.partitions());
    let service = input.service();
    for &t in periods {
        let shorter = rng.between(1, t);
        let d = rng.pick(&[t, t, shorter]);
        tasks::add(rng, &service, &mut input.tasks, [partition, d, t]);
    }
    let t = tasks::period(rng, d);
    tasks::add(rng, &service, &mut input.tasks, [partition, d, t]);
    input
}

pub fn some_periods(rng: &mut Rng) -> Vec<usize> {
    let count = rng.pick(&[0, 1, 1, 2, 2, 3, 5]);
    let most = rng.pick(&[6, 20, 60]);
    (0..count).map(|_| rng.between(1, most)).collect()
}

/// A task that just fails, for one tick of budget: where it passed with one less, a tick is lacking.
fn a_tick_too_many(trial: &mut Trial) {
    let mut seen = Seen::default();
    for _ in trial.cases(4000) {
        let rng = &mut trial.rng;
        let periods = some_periods(rng);
        let d = rng.between(1, 90);
        let mut input = of_one_partition(rng, 20, &periods, d);
        let place = input.listed();
        if !until_it_fails(&mut input) {
            continue;
        }
        let Paged::Fail(page) = exact(trial, &input, place, &mut seen) else {
            continue;
        };
        if input.task(place)[1] > 1 {
            input.task(place)[1] -= 1;
            let before = exact(trial, &input, place, &mut seen);
            // It may have failed from the first.
            if let Paged::Pass(point) = before {
                trial.same((&input, "named"), (page.point, page.shortage), (point, 1));
            }
        }
    }
    seen.share(trial, &["fail"], [3, 4]);
    seen.share(trial, &["pass", SEVERAL, LATER], [1, 4]);
    seen.share(trial, &[EQUAL, WITHIN, NAMED_LAST], [1, 20]);
}

/// A budget that is smaller by the shortage passes, and just so, at the point that was named.
fn that_much_less(trial: &mut Trial) {
    let mut seen = Seen::default();
    for _ in trial.cases(8000) {
        let rng = &mut trial.rng;
        let periods = some_periods(rng);
        let d = rng.between(5, 120);
        let mut input = of_one_partition(rng, 20, &periods, d);
        let place = input.listed();
        let most = usize::from(input.task(place)[2]);
        input.task(place)[1] = rng.between(1, most) as u16;
        let Paged::Fail(Page {
            point, shortage, ..
        }) = judge(trial, &input, place, &mut seen)
        else {
            continue;
        };
        let c = u64::from(input.task(place)[1]);
        if c > shortage {
            input.task(place)[1] = (c - shortage) as u16;
            let verdict = ask(trial, VERDICT, &input, place);
            trial.same((&input, "that much less"), verdict.first, point);
            let paged = page_in(trial, &input, place, 0);
            trial.same((&input, "that much less"), paged, Paged::Pass(point));
            seen.count("less".to_string());
        }
    }
    seen.share(trial, &["fail", SEVERAL, LATER], [1, 4]);
    seen.share(trial, &["less"], [1, 8]);
    seen.share(trial, &[EQUAL, WITHIN, NAMED_LAST], [1, 20]);
}

pub const PERIODS: [usize; 12] = [1, 2, 3, 4, 5, 7, 8, 9, 11, 13, 16, 17];

/// Short periods below a late deadline: points of several of them, which meet.
fn many_points(trial: &mut Trial) {
    let mut seen = Seen::default();
    for _ in trial.cases(2500) {
        let rng = &mut trial.rng;
        let periods: Vec<usize> = (0..rng.between(1, 4)).map(|_| rng.pick(&PERIODS)).collect();
        let d = rng.between(40, 400);
        let mut input = of_one_partition(rng, 16, &periods, d);
        if until_it_fails(&mut input) {
            let task = input.listed();
            let task = input.task(task);
            task[1] = (task[1] + trial.rng.pick(&[0, 0, 1, 5])).min(task[2]);
            judge(trial, &input, input.listed(), &mut seen);
        }
    }
    seen.share(trial, &["fail", MANY], [1, 2]);
    seen.share(trial, &[PAST, LATER], [1, 5]);
    seen.share(trial, &[EQUAL], [1, 8]);
    seen.share(trial, &[WITHIN, LONGER], [1, 10]);
}

/// What the higher tasks take in a multiple of the frame is all that is served there: at each such
/// point the same is lacking, and the lowest is named.
fn equal_shortages(trial: &mut Trial) {
    let mut seen = Seen::default();
    for _ in trial.cases(10_000) {
        let rng = &mut trial.rng;
        let longest = rng.pick(&[1, 4, 12]);
        let mut input = without_tasks(rng, 2, longest);
        let partition = rng.between(1, input.partitions()) as u16;
        let frame = input.plan.len();
        let own = input.service().held(partition, 0, frame as u32) as usize;
        let t = frame * rng.between(1, 3);
        let c = own * (t / frame);
        let first = rng.between(1, c - 1);
        let together = [partition, c as u16, t as u16, t as u16];
        let apart = [first, c - first].map(|c| [partition, c as u16, t as u16, t as u16]);
        input.tasks = match rng.between(0, 1) {
            0 if first < c => apart.concat(),
            _ => together.to_vec(),
        };
        let d = t * rng.between(2, 9) + rng.pick(&[0, 0, 1, t / 2]);
        let budget = rng.between(1, 9).min(d);
        let task = [usize::from(partition), budget, d, d + 5];
        input.tasks.extend(task.map(|number| number as u16));
        let place = input.listed();
        if let Paged::Fail(page) = judge(trial, &input, place, &mut seen) {
            let [t, budget] = [t, budget].map(|number| number as u64);
            trial.same((&input, "named"), page.point, t);
            trial.same((&input, "short by all"), page.shortage, budget);
        }
    }
    seen.share(trial, &["fail", EQUAL], [3, 4]);
    seen.share(trial, &[LONGER, "12"], [1, 10]);
}

/// The other entries say the same of each row: least service, and what the stretch from the start
/// holds. From each lower start it holds more.
fn least_and_held_beside_it(trial: &mut Trial) {
    let mut seen = Seen::default();
    for _ in trial.cases(2000) {
        let rng = &mut trial.rng;
        let periods = some_periods(rng);
        let d = rng.between(1, 60);
        let mut input = of_one_partition(rng, 12, &periods, d);
        let place = input.listed();
        let p = input.task(place)[0];
        until_it_fails(&mut input);
        let numbers = ROW * points(&input, place);
        let Paged::Fail(page) = page_in(trial, &input, place, numbers) else {
            continue;
        };
        note_starts(&mut seen, &input, p, &page);
        let Input { edition, plan, .. } = &input;
        for &[point, _, least, start] in &page.rows {
            let found = compare_least(trial, *edition, plan, p, point as u32);
            trial.same((&input, point), found.first, least);
            for s in 0..=start as u32 {
                let held = compare_held(trial, *edition, plan, p, s, point as u32);
                let worst = u64::from(s) == start;
                trial.same((&input, point, s), held.first == least, worst);
            }
        }
    }
    seen.share(trial, &[WORST_TWICE], [1, 4]);
}
