//! Pages of plans of several shapes, of both editions and with every granule, and at the limits.

use second::inputs::{editions, granules, plans, tables, tasks};
use second::limits::PERIOD;
use second::page::ROW;
use second::rng::Rng;
use second::Answer;

use super::asked::{
    exact, judge, note_starts, page_in, points, until_it_fails, Page, Paged, LATER, PAST, SEVERAL,
    WORST_TWICE,
};
use super::{of_one_partition, some_periods};
use crate::seen::Seen;
use crate::trial::Trial;
use crate::verdict::asked::{served, without_tasks, Input};

/// A failing task behind some others.
fn failing(rng: &mut Rng, longest: usize, most: usize) -> Option<Input> {
    let periods = some_periods(rng);
    let d = rng.between(1, most);
    let mut input = of_one_partition(rng, longest, &periods, d);
    until_it_fails(&mut input).then_some(input)
}

/// The page of a task that can't pass.
fn failed(trial: &mut Trial, input: &Input, place: usize) -> Page {
    let numbers = ROW * points(input, place);
    match page_in(trial, input, place, numbers) {
        Paged::Fail(page) => page,
        other => trial.fail(&format!(
            "{input:?} {place}: {other:?}, though it can't pass"
        )),
    }
}

/// Points, demands and least services, without the starts.
fn without_starts(page: &Page) -> Vec<[u64; 3]> {
    let numbers = |[point, demand, least, _]: &[u64; ROW]| [*point, *demand, *least];
    page.rows.iter().map(numbers).collect()
}

/// The repeated plan has one page, wherever its frame starts, but for the worst starts.
pub fn every_start(trial: &mut Trial) {
    let mut seen = Seen::default();
    for _ in trial.cases(2000) {
        let Some(mut input) = failing(&mut trial.rng, 12, 40) else {
            continue;
        };
        let place = input.listed();
        let p = input.task(place)[0];
        let mut wanted = None;
        for _ in 0..input.plan.len() {
            if let Paged::Fail(page) = exact(trial, &input, place, &mut seen) {
                note_starts(&mut seen, &input, p, &page);
                let found = (without_starts(&page), page.point, page.shortage);
                let wanted = wanted.get_or_insert(found.clone());
                trial.same((&input, "turned"), &found, wanted);
            }
            input.plan.rotate_left(1);
        }
    }
    seen.share(trial, &["fail", LATER, WORST_TWICE], [1, 1]);
}

/// A plan several times over: worst starts come again, and the lowest lies in the first time.
pub fn owners_that_repeat(trial: &mut Trial) {
    let mut seen = Seen::default();
    for _ in trial.cases(5000) {
        let Some(mut input) = failing(&mut trial.rng, 8, 40) else {
            continue;
        };
        let place = input.listed();
        let once = exact(trial, &input, place, &mut seen);
        let times = trial.rng.between(2, 5);
        input.plan = input.plan.repeat(times);
        let again = exact(trial, &input, place, &mut seen);
        trial.same((&input, times), again, once);
    }
    seen.share(trial, &["fail"], [1, 1]);
    seen.share(trial, &[LATER], [1, 3]);
}

/// F 1: every stretch starts at tick 0, and holds all of its ticks.
pub fn one_tick(trial: &mut Trial) {
    let mut seen = Seen::default();
    for _ in trial.cases(10_000) {
        let rng = &mut trial.rng;
        let count = rng.between(1, 5);
        let period = rng.pick(&[2, 4, 20, 60]);
        let mut input = Input {
            edition: editions::some(rng),
            granule: granules::or_other(rng, 1),
            plan: vec![rng.pick(&[1, 1, 1, 1, 1, 1, 0, 2])],
            parts: tables::partitions(rng, 1, 1),
            tasks: tables::tasks(rng, count, 1, period),
        };
        // More than there is, most often.
        let most = usize::from(input.task(count)[2]);
        input.task(count)[1] = rng.between(1, most) as u16;
        if let Paged::Fail(page) = judge(trial, &input, count, &mut seen) {
            for [point, _, least, start] in page.rows {
                trial.same(&input, (least, start), (point, 0));
            }
        }
    }
    seen.share(trial, &["pass", "fail"], [1, 5]);
    seen.share(trial, &[SEVERAL], [1, 8]);
    seen.share(trial, &["9", "8", "12"], [1, 40]);
    seen.share(trial, &["2", "21"], [1, 100]);
}

/// Up to three tasks of one partition with D beyond the frame, up to twelve frames.
pub fn far(rng: &mut Rng) -> Input {
    let longest = rng.between(1, 16);
    let mut input = without_tasks(rng, 3, longest);
    let [own, frame] = [rng.between(1, input.partitions()), input.plan.len()];
    let service = input.service();
    for _ in 0..rng.between(1, 3) {
        let d = rng.between(frame + 1, 12 * frame);
        let t = rng.between(d, 13 * frame);
        tasks::add(rng, &service, &mut input.tasks, [own, d, t]);
    }
    input
}

/// D beyond the frame, up to twelve frames: the stretches pass its end several times.
pub fn beyond_the_frame(trial: &mut Trial) {
    let mut seen = Seen::default();
    for _ in trial.cases(8000) {
        let mut input = far(&mut trial.rng);
        if until_it_fails(&mut input) {
            judge(trial, &input, input.listed(), &mut seen);
        }
    }
    seen.share(trial, &["fail", PAST], [1, 2]);
    seen.share(trial, &[LATER], [1, 6]);
}

/// Tasks of other partitions that ask for all time, between the higher tasks and the asked one, with
/// periods of their own. Taking them out changes nothing.
pub fn others_between(trial: &mut Trial) {
    let mut seen = Seen::default();
    for _ in trial.cases(10_000) {
        let rng = &mut trial.rng;
        let longest = rng.between(2, 24);
        let mut input = without_tasks(rng, 4, longest);
        if input.partitions() < 2 {
            continue;
        }
        let own = rng.between(1, input.partitions()) as u16;
        let other = if own == 1 { 2 } else { own - 1 };
        let mut alone = input.clone();
        for _ in 0..rng.between(1, 4) {
            let mut task = tables::tasks(rng, 1, 1, 80);
            task[0] = own;
            let t = rng.between(1, 40) as u16;
            input.tasks.extend([other, t, t, t]);
            input.tasks.extend(&task);
            alone.tasks.extend(&task);
        }
        let found = exact(trial, &input, input.listed(), &mut seen);
        let wanted = exact(trial, &alone, alone.listed(), &mut seen);
        trial.same((&input, "others taken out"), found, wanted);
    }
    seen.share(trial, &["pass", "fail"], [1, 5]);
    seen.share(trial, &[SEVERAL], [1, 10]);
}

/// What fails in edition 1 fails in 2, at the same points and with the same demands; none has more
/// service there. In half of the cases the task just passes in edition 1, where it can.
pub fn in_both_editions(trial: &mut Trial) {
    let mut seen = Seen::default();
    for _ in trial.cases(10_000) {
        let rng = &mut trial.rng;
        let count = rng.between(1, 4);
        let mut input = served(rng, count, 60);
        // One tick of a cycle is served in edition 2 too, where any is.
        for part in input.parts.chunks_mut(3) {
            part.copy_from_slice(&[input.plan.len() as u16, 1, 1000]);
        }
        (input.edition, input.granule) = (1, 1);
        if rng.one_in(2) && until_it_fails(&mut input) {
            let task = input.task(count);
            task[1] = (task[1] - 1).max(1);
        }
        let pages = [1, 2].map(|edition| {
            input.edition = edition;
            exact(trial, &input, count, &mut seen)
        });
        match &pages {
            [Paged::Fail(one), Paged::Fail(two)] => {
                let named = |page: &Page| -> Vec<[u64; 2]> {
                    page.rows.iter().map(|row| [row[0], row[1]]).collect()
                };
                trial.same((&input, "points"), named(two), named(one));
                let served = one.rows.iter().zip(&two.rows);
                let less = served.clone().all(|(one, two)| two[2] <= one[2]);
                trial.same((&input, "service"), less, true);
                let never = one.shortage <= two.shortage;
                trial.same((&input, "shortage"), never, true);
                if served.clone().any(|(one, two)| two[2] < one[2]) {
                    seen.count("less service".to_string());
                }
            }
            [Paged::Fail(_), Paged::Pass(_)] => trial.same(&input, "pass", "fail"),
            [Paged::Pass(_), Paged::Fail(_)] => seen.count("fails in 2 alone".to_string()),
            _ => {}
        }
    }
    let kinds = ["fail", "pass", "less service", "fails in 2 alone"];
    seen.share(trial, &kinds, [1, 20]);
}

/// A granule sizes the shares: where the plan serves with it, the page is that of any other.
pub fn with_each_granule(trial: &mut Trial) {
    let mut seen = Seen::default();
    for _ in trial.cases(600) {
        let rng = &mut trial.rng;
        let longest = rng.pick(&[8, 24, 40]);
        let edition = editions::good(rng);
        let granule = granules::up_to(rng, longest);
        let mut input = Input::from(plans::served(rng, edition, granule, 3, longest));
        let own = rng.between(1, input.partitions());
        let service = input.service();
        for _ in 0..rng.between(1, 3) {
            let d = rng.between(1, 80);
            let t = tasks::period(rng, d);
            tasks::add(rng, &service, &mut input.tasks, [own, d, t]);
        }
        until_it_fails(&mut input);
        let place = input.listed();
        let wanted = exact(trial, &input, place, &mut seen);
        for other in granules::all() {
            input.granule = other;
            let found = exact(trial, &input, place, &mut seen);
            if !matches!(found, Paged::Refused(_)) {
                trial.same((&input, granule), &found, &wanted);
            }
        }
    }
    seen.share(trial, &["fail", "9", "21"], [1, 1]);
}

pub fn many_tasks(trial: &mut Trial) {
    let mut seen = Seen::default();
    for case in trial.cases(600) {
        let count = [127, 128, 129][case as usize % 3];
        let mut input = served(&mut trial.rng, 0, 1);
        let partitions = input.partitions();
        for _ in 0..count {
            let owner = trial.rng.between(1, partitions) as u16;
            let period = trial.rng.between(20, 300) as u16;
            input.tasks.extend([owner, 1, period, period]);
        }
        let place = trial.rng.pick(&[0, 60, 126, 127, 128, count]);
        judge(trial, &input, place, &mut seen);
    }
}

/// Higher tasks that ask for 65,536 ticks together, which in 16 bits are none; and for so many that
/// the demand of several points needs more.
pub fn demand_past_16_bits(trial: &mut Trial) {
    for case in trial.cases(300) {
        let mut input = served(&mut trial.rng, 0, 1);
        let period = trial.rng.pick(&[1024, 2048, 4096]);
        let many = (65_536 / usize::from(period)).min(127);
        input.tasks = [1, period, period, period].repeat(many);
        let d = match case % 3 {
            0 => trial.rng.between(24, 100),
            _ => trial.rng.between(3000, 4096),
        };
        input.tasks.extend([1, 1, d as u16, 4096]);
        let page = failed(trial, &input, many + 1);
        let more = page.rows.iter().all(|row| row[1] > 65_536);
        trial.same((&input, "demand"), more, true);
    }
}

/// A period of one tick, and deadlines up to the longest: up to 4,096 rows.
pub fn every_tick_a_point(trial: &mut Trial) {
    for case in trial.cases(24) {
        let rng = &mut trial.rng;
        let mut input = without_tasks(rng, 1, 8);
        let d = match case % 4 {
            0 => PERIOD as usize,
            1 => PERIOD as usize - 1,
            2 => rng.between(100, 1100),
            _ => rng.between(1000, 4000),
        };
        let c = rng.between(1, 100).min(d) as u16;
        input.tasks = vec![1, 1, 1, 1, 1, c, d as u16, 4096];
        trial.same(&input, points(&input, 2), d);
        let needed = ROW * d;
        let page = failed(trial, &input, 2);
        let short = Paged::Refused(Answer::refused(12));
        for (numbers, wanted) in [(needed - 1, short), (needed + 5, Paged::Fail(page))] {
            let found = page_in(trial, &input, 2, numbers);
            trial.same((&input, numbers), found, wanted);
        }
    }
}

/// Sixteen partitions in the longest frame, a higher task, and deadlines up to the longest. A frame
/// has at most 256 ticks of each partition.
pub fn long_frames(trial: &mut Trial) {
    for case in trial.cases(16) {
        let rng = &mut trial.rng;
        let edition = editions::good(rng);
        let mut input = Input::from(plans::of_sixteen(rng, edition));
        // With one tick idle the plan doesn't repeat within the frame; low shares let it serve.
        for part in input.parts.chunks_mut(3) {
            part.copy_from_slice(&[512, 1, 1000]);
        }
        input.plan[rng.between(0, 4095)] = 0;
        let period = rng.pick(&[7, 40, 333, 1500]);
        let d = match case % 3 {
            0 => PERIOD as usize,
            _ => rng.between(2000, 4096),
        };
        let c = rng.between(260, 900).min(d) as u16;
        input.tasks = vec![3, 1, period, period, 2, 1, 7, 7, 3, c, d as u16, 4096];
        failed(trial, &input, 3);
    }
}
