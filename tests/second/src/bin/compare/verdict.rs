//! The two engines of the verdict: the library against the second program, and against runs played
//! out.

pub mod asked;
mod long;
mod plain;
mod shapes;

use second::inputs::{editions, granules, plans};
use second::{records, runs};

use crate::seen::Seen;
use crate::trial::{Named, Trial};
use asked::{compare, faulty, judge, judge_all, served, Input, Judged, BELOW};

pub const TRIALS: &[Named] = &[
    ("verdict, all small", all_small),
    ("verdict, small", small),
    ("verdict, one tick more or less", one_tick_more_or_less),
    ("verdict, periods that meet", periods_that_meet),
    ("verdict, faults", faults),
    ("verdict, many tasks", many_tasks),
    ("verdict, demand past 16 bits", demand_past_16_bits),
    ("verdict, many frames", long::many_frames),
    ("verdict, long frames", long::long_frames),
    ("verdict, D and the frame", shapes::deadlines_and_the_frame),
    (
        "verdict, one partition's many",
        shapes::many_of_one_partition,
    ),
    ("verdict, interleaved", shapes::interleaved),
    (
        "verdict, deadlines that differ",
        shapes::deadlines_that_differ,
    ),
    ("verdict, about the tick", shapes::about_the_tick),
    ("verdict, legal runs", legal_runs),
    ("plain, D 1", plain::deadline_1),
    ("plain, D = C", plain::deadline_c),
    ("plain, F 1", plain::one_tick),
    ("plain, others between", plain::others_between),
    ("plain, below the point", plain::below_the_point),
    ("plain, D beyond the frame", plain::beyond_the_frame),
    ("plain, many frames", long::plain_many_frames),
    ("plain, long frames", long::plain_long_frames),
    (
        "plain, all that a frame holds",
        long::all_that_a_frame_holds,
    ),
];

/// Every task of partition 1 with a period up to five.
pub fn every_task() -> Vec<Vec<u16>> {
    let mut tasks = Vec::new();
    for t in 1..=5 {
        for d in 1..=t {
            tasks.extend((1..=d).map(|c| vec![1, c, d, t]));
        }
    }
    tasks
}

/// Every task of those, alone and behind every other.
fn all_small(trial: &mut Trial) {
    let tasks = every_task();
    // A partition's ticks, or idle.
    for plan in trial.each((1..=4).flat_map(|frame| plans::every(frame, 2))) {
        for higher in [&[Vec::new()], &tasks[..]].concat() {
            for task in &tasks {
                let frame = plan.len() as u16;
                let own = plan.iter().filter(|owner| **owner == 1).count();
                let input = Input {
                    edition: editions::some(&mut trial.rng),
                    granule: granules::up_to(&mut trial.rng, own.max(1)),
                    plan: plan.clone(),
                    parts: vec![frame, 1, frame],
                    tasks: [&higher[..], task].concat(),
                };
                compare(trial, &input, input.listed());
            }
        }
    }
}

fn small(trial: &mut Trial) {
    let mut seen = Seen::default();
    for _ in trial.cases(15_000) {
        let tasks = trial.rng.between(0, 6);
        let period = trial.rng.pick(&[6, 20, 60, 200]);
        let input = served(&mut trial.rng, tasks, period);
        judge_all(trial, &input, &mut seen);
    }
    seen.share(trial, &["pass", "fail", BELOW], [1, 3]);
}

/// Deadlines that just pass or just fail, as V1 and V2 do.
fn one_tick_more_or_less(trial: &mut Trial) {
    let mut seen = Seen::default();
    for _ in trial.cases(5000) {
        let tasks = trial.rng.between(1, 4);
        let mut input = served(&mut trial.rng, tasks, 60);
        let [_, c, d, t] = [0, 1, 2, 3].map(|number| input.tasks[4 * (tasks - 1) + number]);
        for deadline in c..=t.min(d + 3) {
            input.tasks[4 * (tasks - 1) + 2] = deadline;
            judge(trial, &input, tasks, &mut seen);
        }
    }
    seen.share(trial, &["pass", "fail", BELOW], [1, 1]);
}

fn periods_that_meet(trial: &mut Trial) {
    let mut seen = Seen::default();
    for _ in trial.cases(8000) {
        let count = trial.rng.between(2, 6);
        let mut input = served(&mut trial.rng, count, 12);
        let base = trial.rng.between(2, 9) as u16;
        for task in input.tasks.chunks_mut(4) {
            task[0] = 1;
            task[3] = base * trial.rng.pick(&[1, 1, 2, 3, 6]);
            task[2] = trial.rng.between(1, task[3].into()) as u16;
            task[1] = trial.rng.between(1, 2).min(task[2].into()) as u16;
        }
        judge_all(trial, &input, &mut seen);
    }
    seen.share(trial, &["pass", "fail", BELOW], [1, 3]);
}

fn faults(trial: &mut Trial) {
    let mut seen = Seen::default();
    for _ in trial.cases(50_000) {
        let (input, place) = faulty(&mut trial.rng);
        judge(trial, &input, place, &mut seen);
    }
    let refused = ["3", "6", "7", "7 with place 0", "8", "9"];
    seen.share(trial, &refused, [1, 50]);
    seen.share(trial, &["2", "21"], [1, 100]);
    seen.share(trial, &["pass", "fail", BELOW], [1, 50]);
}

fn many_tasks(trial: &mut Trial) {
    for case in trial.cases(300) {
        let count = [127, 128, 129][case as usize % 3];
        let mut input = served(&mut trial.rng, 0, 1);
        let partitions = input.partitions();
        for _ in 0..count {
            let owner = trial.rng.between(1, partitions) as u16;
            let period = trial.rng.between(300, 800) as u16;
            input.tasks.extend([owner, 1, period, period]);
        }
        let place = trial.rng.between(0, count + 1);
        compare(trial, &input, place);
    }
}

/// Higher tasks that ask for 65,536 ticks together, which in 16 bits are none.
fn demand_past_16_bits(trial: &mut Trial) {
    for _ in trial.cases(1000) {
        let mut input = served(&mut trial.rng, 0, 1);
        let period = trial.rng.pick(&[1024, 2048, 4096]);
        let many = 65_536 / usize::from(period);
        input.tasks = [1, period, period, period].repeat(many);
        let d = trial.rng.between(24, 100) as u16;
        input.tasks.extend([1, 1, d, 4096]);
        let judged = compare(trial, &input, many + 1);
        trial.same((&input, "judged"), judged, Judged::Fail);
    }
}

/// Runs played out with another deadline for the task at a place.
fn play(trial: &mut Trial, input: &Input, place: usize, deadline: u64) {
    let Ok(mut tasks) = records::tasks(&input.tasks) else {
        return;
    };
    tasks[place - 1].d = deadline;
    for _ in 0..3 {
        let missed = runs::misses(&input.service(), &tasks, place, 250, &mut trial.rng);
        trial.same((input, place, deadline, "missed"), missed, false);
    }
}

/// In no legal run does a task that passes ever miss, in either edition. By the plain engine's rule it
/// passes with its tick for a deadline too.
fn legal_runs(trial: &mut Trial) {
    let mut seen = Seen::default();
    for _ in trial.cases(8000) {
        let count = trial.rng.between(1, 5);
        let input = served(&mut trial.rng, count, 40);
        for place in 1..=count {
            if let Judged::Pass { tick, .. } = judge(trial, &input, place, &mut seen) {
                let d = input.tasks[4 * (place - 1) + 2];
                play(trial, &input, place, d.into());
                play(trial, &input, place, tick);
            }
        }
    }
    seen.share(trial, &["pass", BELOW], [1, 4]);
}
