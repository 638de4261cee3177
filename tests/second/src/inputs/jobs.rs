//! Tables of the desk.

use super::requests::LATEST;
use crate::desk::{Desk, Job};
use crate::limits::JOBS;
use crate::rng::Rng;

/// How far things lie apart in a table of the desk.
#[derive(Clone, Copy, Debug)]
pub struct Spread {
    pub from: usize,
    pub gap: usize,
    pub budget: usize,
    pub slack: usize,
}

/// Loose and dense tables, near 0 and near 1,000,000.
pub fn spread(rng: &mut Rng) -> Spread {
    Spread {
        from: rng.pick(&[0, 0, 5, 50, 999_000, 999_900]),
        gap: rng.pick(&[0, 1, 4, 12]),
        budget: rng.pick(&[1, 3, 9]),
        slack: rng.pick(&[0, 3, 20, 200]),
    }
}

/// A table by the rules, but for x and the clock, which opening takes as they are.
pub fn table(rng: &mut Rng, count: usize, spread: Spread) -> (Desk, Vec<Job>) {
    let mut jobs = vec![Job::default(); JOBS];
    let mut end = rng.between(spread.from, spread.from + spread.gap) as u32;
    for job in jobs.iter_mut().take(count) {
        job.a = end + rng.between(0, spread.gap) as u32;
        job.c = rng.between(1, spread.budget) as u32;
        end = job.a + job.c;
        job.d = end + rng.between(0, spread.slack) as u32;
        job.x = rng.pick(&[0, 1, 1000, u32::MAX]);
    }
    let clock = rng.pick(&[0, 1, 1_000_000, 1_000_001, u32::MAX]);
    let count = count as u32;
    (Desk { clock, count }, jobs)
}

/// Jobs that stand close and can hardly move, with one gap before, between or behind them: so the
/// room is where no job gives it.
pub fn about_a_gap(rng: &mut Rng, count: usize) -> (Desk, Vec<Job>) {
    let spread = Spread {
        gap: rng.pick(&[0, 1, 3]),
        slack: rng.pick(&[0, 1, 4]),
        ..spread(rng)
    };
    let (desk, mut jobs) = table(rng, count, spread);
    let wide = rng.between(5, 50) as u32;
    for job in &mut jobs[rng.between(0, count)..count] {
        job.a += wide;
        job.d += wide;
    }
    (desk, jobs)
}

/// Jobs one behind the other, nearly without gaps, that can all move far, but for one or two in the
/// second half: those are late first. There has to be a job.
pub fn chain(rng: &mut Rng, count: usize) -> (Desk, Vec<Job>) {
    let spread = Spread {
        from: rng.pick(&[0, 5, 50, 999_000]),
        gap: rng.pick(&[0, 0, 1]),
        budget: rng.pick(&[1, 3]),
        slack: rng.pick(&[0, 9]),
    };
    let (desk, mut jobs) = table(rng, count, spread);
    for job in &mut jobs[..count] {
        job.d += 100;
    }
    let slack = rng.between(0, 6) as u32;
    for _ in 0..rng.between(1, 2) {
        let job = &mut jobs[rng.between(count / 2, count - 1)];
        job.d = job.end() + slack;
    }
    (desk, jobs)
}

/// Jobs alike: the same gap before each, the same budget and the same slack, which is often none. So
/// rooms are equal.
pub fn alike(rng: &mut Rng, count: usize) -> (Desk, Vec<Job>) {
    let gap = rng.between(0, 6) as u32;
    let c = rng.between(1, 4) as u32;
    let slack = rng.pick(&[0, 0, 1, 3]);
    let mut jobs = vec![Job::default(); JOBS];
    let mut end = rng.pick(&[0, 7, 998_000]);
    for job in jobs.iter_mut().take(count) {
        let a = end + gap;
        end = a + c;
        let d = end + slack;
        *job = Job { a, c, d, x: 0 };
    }
    let count = count as u32;
    (Desk { clock: 0, count }, jobs)
}

/// Jobs that can't move.
pub fn tight(rng: &mut Rng, count: usize) -> (Desk, Vec<Job>) {
    let spread = Spread {
        slack: 0,
        ..spread(rng)
    };
    table(rng, count, spread)
}

/// Jobs of which most have until the latest time, so that they can be moved far; one that hasn't
/// holds those before it.
pub fn far(rng: &mut Rng, count: usize) -> (Desk, Vec<Job>) {
    let spread = Spread {
        from: rng.pick(&[0, 5, 50]),
        ..spread(rng)
    };
    let (desk, mut jobs) = table(rng, count, spread);
    for job in &mut jobs[..count] {
        if !rng.one_in(8) {
            job.d = LATEST;
        }
    }
    (desk, jobs)
}

/// Tables of all kinds.
pub fn any(rng: &mut Rng, count: usize) -> (Desk, Vec<Job>) {
    let spread = spread(rng);
    match rng.between(0, 5) {
        0 if count > 0 => chain(rng, count),
        1 => alike(rng, count),
        2 => tight(rng, count),
        3 => far(rng, count),
        _ => table(rng, count, spread),
    }
}

/// A number beside what it was, at the limit, or near the width's end.
fn beside(rng: &mut Rng, number: u32) -> u32 {
    match rng.between(0, 5) {
        0 | 1 => number.wrapping_add(1),
        2 | 3 => number.wrapping_sub(1),
        4 => rng.pick(&[0, 1, 999_999, 1_000_000, 1_000_001]),
        _ => u32::MAX - rng.between(0, 9) as u32,
    }
}

/// A fault in the record, in a listed job, or past the count.
pub fn spoil(rng: &mut Rng, desk: &mut Desk, jobs: &mut [Job]) {
    match rng.between(0, 5) {
        0 => desk.count = beside(rng, desk.count),
        1 => desk.count = rng.pick(&[64, 65, 66, 128, u32::MAX]),
        2 => desk.clock = beside(rng, desk.clock),
        3 => spoil_job(rng, jobs, desk.count as usize, JOBS),
        _ => spoil_job(rng, jobs, 0, desk.count as usize),
    }
}

/// One number of a job in the places from `from` up to before `to`.
fn spoil_job(rng: &mut Rng, jobs: &mut [Job], from: usize, to: usize) {
    let to = to.min(jobs.len());
    if from >= to {
        return;
    }
    let job = &mut jobs[rng.between(from, to - 1)];
    let number = match rng.between(0, 4) {
        0 => &mut job.a,
        1 => &mut job.c,
        2 => &mut job.d,
        _ => &mut job.x,
    };
    *number = beside(rng, *number);
}
