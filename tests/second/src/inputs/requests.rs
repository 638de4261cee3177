//! Requests at the desk, drawn from its clock and its listed jobs, which are by the rules.

use crate::desk::Job;
use crate::limits::{JOBS, TIME};
use crate::rng::Rng;

/// The latest time, deadline and budget.
pub const LATEST: u32 = TIME as u32;

#[derive(Clone, Copy, Debug)]
pub struct Request {
    pub t: u32,
    pub c: u32,
    pub d: u32,
}

/// A way to draw a request.
pub type Draw = fn(&mut Rng, u32, &[Job]) -> Request;

impl Request {
    /// The jobs left, which are the later ones of those listed.
    pub fn left<'a>(&self, listed: &'a [Job]) -> &'a [Job] {
        let dropped = |job: &&Job| job.end() <= self.t;
        &listed[listed.iter().take_while(dropped).count()..]
    }

    /// "the number of jobs left with a ≤ d"
    pub fn l(&self, left: &[Job]) -> usize {
        left.iter().filter(|job| job.a <= self.d).count()
    }

    /// "s is t for place 0, else the end of the job before."
    pub fn earliest(&self, left: &[Job], place: usize) -> u32 {
        left[..place].last().map_or(self.t, Job::end)
    }

    /// The rooms of the places from 0 to l, by the flexibilities; below 0 there is none.
    pub fn rooms(&self, left: &[Job]) -> Vec<i64> {
        let l = self.l(left);
        let room = |place: usize| {
            let latest = left[..l].get(place).map_or(self.d, |job| job.a + job.x);
            let s = self.earliest(left, place);
            i64::from(latest.min(self.d)) - i64::from(s)
        };
        (0..=l).map(room).collect()
    }
}

/// Requests of all kinds, at times with a number at or past its limit.
pub fn any(rng: &mut Rng, clock: u32, listed: &[Job]) -> Request {
    let request = within_limits(rng, clock, listed);
    if rng.one_in(12) {
        at_a_limit(rng, clock, request)
    } else {
        request
    }
}

pub fn within_limits(rng: &mut Rng, clock: u32, listed: &[Job]) -> Request {
    let t = any_time(rng, clock, listed);
    let c = rng.between(1, largest_budget(listed)) as u32;
    let far = rng.pick(&[5, 30, 300]);
    let after = t + c + rng.between(0, far) as u32;
    let d = match (rng.between(0, 7), listed) {
        (0, [_, ..]) => rng.pick(listed).a,
        (1, [_, ..]) => rng.pick(listed).d,
        (2, _) => rng.pick(&[0, t.saturating_sub(1), t, t + 1]),
        _ => after,
    };
    let d = d.min(LATEST);
    Request { t, c, d }
}

/// A time at or after the clock: the clock itself, beside a start or an end, or any.
fn any_time(rng: &mut Rng, clock: u32, listed: &[Job]) -> u32 {
    let clock = clock.min(LATEST);
    let beside = rng.pick(&[0, 1, 2]);
    let time = match (rng.between(0, 9), listed) {
        (0..=3, _) => clock,
        (4, _) | (_, []) => clock + rng.between(0, 12) as u32,
        (5, [first, ..]) => (first.a + beside).saturating_sub(1),
        (6, [first, ..]) => (first.end() + beside).saturating_sub(1),
        (7, listed) => rng.pick(listed).a,
        (8, listed) => (rng.pick(listed).a + rng.pick(listed).c).saturating_sub(1),
        _ => clock + rng.between(0, 3) as u32,
    };
    time.clamp(clock, LATEST)
}

/// Budgets that grow with the room there is about the first job.
fn largest_budget(listed: &[Job]) -> usize {
    let first = listed.first();
    first.map_or(4, |job| job.x.min(20) as usize + 2)
}

/// With one number at or past its limit, or before the clock.
pub fn at_a_limit(rng: &mut Rng, clock: u32, mut request: Request) -> Request {
    let edge = rng.pick(&[0, 1, 999_999, 1_000_000, 1_000_001, u32::MAX]);
    match rng.between(0, 4) {
        0 => request.t = rng.pick(&[1_000_000, 1_000_001, u32::MAX]),
        1 => request.t = clock.wrapping_sub(rng.between(1, 3) as u32),
        2 => request.c = edge,
        _ => request.d = edge,
    }
    request
}

/// A request that ends by its deadline at place l, or a tick before or past it.
pub fn about_place_l(rng: &mut Rng, clock: u32, listed: &[Job]) -> Request {
    let t = idle_time(rng, clock, listed);
    let mut request = Request { t, c: 1, d: 0 };
    let left = request.left(listed);
    let l = rng.pick(&[0, widest_gap(left), left.len()]);
    let s = request.earliest(left, l);
    // A later deadline would let place l be another one.
    let last = left.get(l).map_or(LATEST, |job| job.a.saturating_sub(1));
    let near = s + rng.between(0, 30) as u32;
    request.d = rng.pick(&[s, near, near, last]).min(last);
    let beside = rng.pick(&[0, 1, 1, 2]);
    request.c = (request.d + beside).saturating_sub(s + 1).max(1);
    request
}

/// The place of the widest gap between two jobs.
fn widest_gap(left: &[Job]) -> usize {
    let gap = |place: &usize| left[*place].a - left[*place - 1].end();
    (1..left.len()).max_by_key(gap).unwrap_or(0)
}

/// A time at or after the clock when no job is running: mostly the clock, of a full table mostly
/// the first end, so that a place is free again.
fn idle_time(rng: &mut Rng, clock: u32, listed: &[Job]) -> u32 {
    let time = match (rng.between(0, 9), listed) {
        (0, [_, ..]) => rng.pick(listed).a,
        (1, [_, ..]) => rng.pick(listed).end(),
        (2, _) => clock + rng.between(0, 4) as u32,
        (3..=7, [first, ..]) if listed.len() == JOBS => first.end(),
        _ => clock,
    };
    once_idle(listed, time.clamp(clock, LATEST))
}

/// The time itself, or the end of the job that is running then.
fn once_idle(listed: &[Job], time: u32) -> u32 {
    let running = |job: &&Job| job.a < time && time < job.end();
    listed.iter().find(running).map_or(time, Job::end)
}

/// A request that just doesn't fit anywhere, or just does, or is far too long.
pub fn too_long(rng: &mut Rng, clock: u32, listed: &[Job]) -> Request {
    let (request, rooms) = of_one_tick(rng, clock, listed);
    let most = rooms.into_iter().max().unwrap_or(0).max(0) as u32;
    let far = rng.between(1, TIME as usize) as u32;
    let c = most + rng.pick(&[0, 1, 1, 1, 1, 2, 9, far]);
    let c = c.clamp(1, LATEST);
    Request { c, ..request }
}

/// A request as long as a room that no lower place has, so that the jobs behind that place are moved
/// as far as they can be, or the request's deadline allows; or a tick shorter or longer.
pub fn about_a_room(rng: &mut Rng, clock: u32, listed: &[Job]) -> Request {
    let (request, rooms) = of_one_tick(rng, clock, listed);
    let room = rng.pick(&rising(&rooms)).max(0) as u32;
    let beside = rng.pick(&[0, 1, 1, 2]);
    let c = (room + beside).saturating_sub(1);
    let c = c.clamp(1, LATEST);
    Request { c, ..request }
}

/// Each room that is larger than all before it.
fn rising(rooms: &[i64]) -> Vec<i64> {
    let larger = |place: &usize| rooms[..*place].iter().all(|lower| lower < &rooms[*place]);
    let places = (0..rooms.len()).filter(larger);
    places.map(|place| rooms[place]).collect()
}

/// A request when no job is running, by some deadline, and the rooms that it finds.
fn of_one_tick(rng: &mut Rng, clock: u32, listed: &[Job]) -> (Request, Vec<i64>) {
    let t = idle_time(rng, clock, listed);
    let mut request = Request { t, c: 1, d: 0 };
    let left = request.left(listed);
    request.d = some_deadline(rng, t, left).min(LATEST);
    (request, request.rooms(left))
}

/// A deadline before t, at t or before all jobs; at the latest start that a job can be moved to, its
/// start, its end or its deadline, or beside them; or about the last job's end.
fn some_deadline(rng: &mut Rng, t: u32, left: &[Job]) -> u32 {
    let beside = rng.pick(&[0, 1, 1, 1, 2]);
    let ([first, ..], [.., last]) = (left, left) else {
        return rng.pick(&[t.saturating_sub(1), t, t + 7]);
    };
    let job = rng.pick(left);
    let latest = first.a + first.x;
    match rng.between(0, 15) {
        0 => rng.pick(&[0, t.saturating_sub(1)]),
        1 => t,
        2 => rng.between(t as usize, first.a.saturating_sub(1) as usize) as u32,
        3 | 4 => (job.a + job.x + beside).saturating_sub(1),
        5 => (latest + beside).saturating_sub(1),
        6 => (job.a + beside).saturating_sub(1),
        7 => (job.end() + beside).saturating_sub(1),
        8 => (job.d + beside).saturating_sub(1),
        9..=11 => rng.between(latest as usize, last.end() as usize) as u32,
        _ => last.end() + rng.between(0, 4) as u32,
    }
}

/// A request that every table with a place left takes, for its deadline lies behind all jobs. Time
/// goes on slowly, so that the table grows.
pub fn growing(rng: &mut Rng, clock: u32, listed: &[Job]) -> Request {
    let t = once_idle(listed, clock + u32::from(rng.one_in(20)));
    let c = rng.between(1, 4) as u32;
    let last = listed.last().map_or(t, Job::end);
    let d = last.max(t) + c + rng.pick(&[0, 0, 3, 60]);
    Request { t, c, d }
}
