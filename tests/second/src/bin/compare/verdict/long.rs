//! Deadlines up to 4,096 in short frames and in the longest. A plain engine walks the plan for every
//! tick that it tries, so it is asked less often.

use second::inputs::{editions, granules, plans};
use second::rng::Rng;

use super::asked::{ask, compare, without_tasks, Input, Judged, VERDICT};
use crate::trial::Trial;

fn of_many_frames(rng: &mut Rng) -> Input {
    let mut input = without_tasks(rng, 2, 8);
    for _ in 0..rng.between(0, 3) {
        let period = rng.between(200, 2000) as u16;
        let c = rng.between(1, 100) as u16;
        input.tasks.extend([1, c, period, period]);
    }
    let d = rng.between(3000, 4096) as u16;
    let c = rng.between(1, 1200) as u16;
    input.tasks.extend([1, c, d, 4096]);
    input
}

pub fn many_frames(trial: &mut Trial) {
    for _ in trial.cases(150) {
        let input = of_many_frames(&mut trial.rng);
        ask(trial, VERDICT, &input, input.listed());
    }
}

pub fn plain_many_frames(trial: &mut Trial) {
    for _ in trial.cases(40) {
        let input = of_many_frames(&mut trial.rng);
        compare(trial, &input, input.listed());
    }
}

/// Sixteen partitions in the longest frame, and a task of one of them behind a higher one.
fn of_sixteen(rng: &mut Rng, c: u16, d: u16) -> Input {
    let edition = editions::good(rng);
    Input {
        tasks: vec![3, 40, 1500, 1500, 2, 1, 7, 7, 3, c, d, 4096],
        ..Input::from(plans::of_sixteen(rng, edition))
    }
}

/// Sixteen partitions in the longest frame, up to the longest deadline.
pub fn long_frames(trial: &mut Trial) {
    for _ in trial.cases(60) {
        let d = trial.rng.between(2000, 4096) as u16;
        let c = trial.rng.between(1, 120) as u16;
        let input = of_sixteen(&mut trial.rng, c, d);
        ask(trial, VERDICT, &input, 3);
    }
}

/// The longest deadline in the longest frame, passed and failed.
pub fn plain_long_frames(trial: &mut Trial) {
    for _ in trial.cases(12) {
        let c = trial.rng.between(1, 250) as u16;
        let input = of_sixteen(&mut trial.rng, c, 4096);
        compare(trial, &input, 3);
    }
}

/// A partition with all its ticks in one run of the frame, and two tasks with the longest deadline
/// that ask for so many ticks together.
fn of_one_run(rng: &mut Rng, frame: usize, own: usize, asked: usize) -> Input {
    let mut plan = [vec![1; own], vec![2; frame - own]].concat();
    plan.rotate_left(rng.between(0, frame - 1));
    let higher = rng.between(1, asked - 1);
    let budgets = [higher, asked - higher].map(|c| [1, c as u16, 4096, 4096]);
    Input {
        edition: editions::good(rng).number(),
        granule: granules::good(rng),
        plan,
        parts: [frame as u16, 1, 5].repeat(2),
        tasks: budgets.concat(),
    }
}

/// One tick less than the longest frame holds, all of them, and one more. A frame of 4,096 ticks
/// is as long as the deadline, one of 4,095 is a tick shorter. In edition 2 the first tick of the run
/// is no service.
pub fn all_that_a_frame_holds(trial: &mut Trial) {
    for case in trial.cases(6) {
        let frame = [4095, 4096][case as usize % 2];
        let own = trial.rng.between(1000, 3000);
        let asked = own - 1 + case as usize / 2 % 3;
        let mut input = of_one_run(&mut trial.rng, frame, own, asked);
        for (edition, served) in [(1, own), (2, own - 1)] {
            input.edition = edition;
            let judged = compare(trial, &input, 2);
            let wanted = if asked <= served {
                let tick = (frame - served + asked) as u64;
                Judged::Pass { point: 4096, tick }
            } else {
                Judged::Fail
            };
            trial.same((edition, frame, own, asked), judged, wanted);
        }
    }
}
