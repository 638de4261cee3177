//! Jobs as in source document 002, section V, in the partition's own ticks. What differs: the length
//! of the cycle; how tasks of a given sum are drawn; its filter of sets that can never take a late
//! job is left out; and there are settings besides its own, with all ticks or with few own jobs.

use second::desk::Job;
use second::inputs::requests::Request;
use second::rng::Rng;

/// The scheduling cycle, in which the late jobs are released, in wall ticks. The paper has 500 to
/// 5,000, but the desk has 64 places. Own jobs must go on as far into the next cycle as a late
/// job's deadline can lie, 12 times 10 ticks: else the table would run empty at the cycle's end. In
/// those 270 ticks three tasks of period 15 release 54 jobs, and late jobs of 20 % are 6 at most.
pub const SC: u32 = 150;
pub const GOES_ON: u32 = SC + 12 * 10;

/// Where the jobs run, and what the table holds before any late job.
#[derive(Clone, Copy)]
pub struct Setting {
    pub name: &'static str,
    /// So many of each ten wall ticks are the partition's, the first ones.
    pub supply: u32,
    pub own: Own,
}

#[derive(Clone, Copy)]
pub enum Own {
    /// The jobs of one to three tasks that need about so many percent of the wall ticks, released
    /// before the tick `until`.
    Periodic { percent: u32, until: u32 },
    /// So many jobs, scattered over the cycle.
    Jobs(u32),
}

/// A task or a single job, whose deadline lies t after its release.
#[derive(Clone, Copy)]
struct Task {
    c: u32,
    t: u32,
}

fn some_task(rng: &mut Rng) -> Task {
    let c = rng.between(1, 15) as u32;
    let t = rng.between(15, 30) as u32;
    Task { c, t }
}

/// The paper draws shares of a fixed sum, which whole ticks rarely meet: here tasks are drawn until
/// their sum lies at most one percent beside it.
fn some_tasks(rng: &mut Rng, percent: u32) -> Vec<Task> {
    loop {
        let tasks: Vec<Task> = (0..rng.between(1, 3)).map(|_| some_task(rng)).collect();
        let need: u32 = tasks.iter().map(|task| 1000 * task.c / task.t).sum();
        if need.abs_diff(10 * percent) <= 10 {
            return tasks;
        }
    }
}

fn some_release(rng: &mut Rng) -> u32 {
    rng.between(0, SC as usize - 1) as u32
}

impl Setting {
    /// The partition's ticks before a wall tick.
    fn own_time(&self, wall: u32) -> u32 {
        wall / 10 * self.supply + self.supply.min(wall % 10)
    }

    /// A job from its release to its deadline, both given in wall ticks.
    fn job(&self, release: u32, c: u32, deadline: u32) -> Job {
        let [a, d] = [release, deadline].map(|wall| self.own_time(wall));
        Job { a, c, d, x: 0 }
    }

    /// The jobs of the table, drawn until they have a plan.
    pub fn own_jobs(&self, rng: &mut Rng) -> Vec<Job> {
        loop {
            let released = match self.own {
                Own::Periodic { percent, until } => self.periodic(rng, percent, until),
                Own::Jobs(count) => (0..count).map(|_| self.single(rng)).collect(),
            };
            if let Some(jobs) = planned(released) {
                return jobs;
            }
        }
    }

    fn periodic(&self, rng: &mut Rng, percent: u32, until: u32) -> Vec<Job> {
        let released = |Task { c, t }| {
            let releases = (0..until).step_by(t as usize);
            releases.map(move |at| self.job(at, c, at + t))
        };
        let tasks = some_tasks(rng, percent);
        tasks.into_iter().flat_map(released).collect()
    }

    fn single(&self, rng: &mut Rng) -> Job {
        let Task { c, t } = some_task(rng);
        let at = some_release(rng);
        self.job(at, c, at + t)
    }

    /// Late jobs by rising release, until they need so many percent of the wall ticks: each has
    /// `dlx` times its budget from its release to its deadline.
    pub fn late_jobs(&self, rng: &mut Rng, dlx: u32, percent: u32) -> Vec<Request> {
        let mut late = Vec::new();
        let mut need = 0;
        while 100 * need < percent * SC {
            let c = rng.between(5, 10) as u32;
            let at = some_release(rng);
            let Job { a: t, d, .. } = self.job(at, c, at + dlx * c);
            late.push(Request { t, c, d });
            need += c;
        }
        late.sort_by_key(|job| job.t);
        late
    }
}

/// The jobs one behind the other, by rising start: of those released the one with the earliest
/// deadline first. None, when one misses it.
fn planned(mut released: Vec<Job>) -> Option<Vec<Job>> {
    let mut jobs = Vec::new();
    let mut free = 0;
    while let Some(first) = released.iter().map(|job| job.a).min() {
        let a = first.max(free);
        let ready = (0..released.len()).filter(|&place| released[place].a <= a);
        let next = ready.min_by_key(|&place| released[place].d)?;
        let Job { c, d, x, .. } = released.remove(next);
        free = a + c;
        if free > d {
            return None;
        }
        jobs.push(Job { a, c, d, x });
    }
    Some(jobs)
}
