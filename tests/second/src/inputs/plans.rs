//! Plans as ticks.

use super::{editions, granules, tables};
use crate::builder;
use crate::editions::Edition;
use crate::limits::FRAME;
use crate::rng::Rng;
use crate::service::Service;

/// Any owner in each tick.
pub fn scattered(rng: &mut Rng, ticks: usize, partitions: usize) -> Vec<u16> {
    let mut plan = Vec::new();
    for _ in 0..ticks {
        plan.push(rng.between(0, partitions) as u16);
    }
    plan
}

/// Owners in stretches.
pub fn in_runs(rng: &mut Rng, ticks: usize, partitions: usize) -> Vec<u16> {
    in_runs_up_to(rng, ticks, partitions, 6)
}

/// Owners in stretches of up to `longest` ticks.
pub fn in_runs_up_to(rng: &mut Rng, ticks: usize, partitions: usize, longest: usize) -> Vec<u16> {
    let mut plan = Vec::new();
    while plan.len() < ticks {
        let owner = rng.between(0, partitions) as u16;
        let length = rng.between(1, ticks.min(longest));
        plan.extend(vec![owner; length]);
    }
    plan.truncate(ticks);
    plan
}

/// Every plan of so many ticks with so many owners, from 0 on.
pub fn every(ticks: u32, owners: u32) -> impl Iterator<Item = Vec<u16>> {
    let owner = move |plan: u32, tick: u32| (plan / owners.pow(tick) % owners) as u16;
    (0..owners.pow(ticks)).map(move |plan| (0..ticks).map(|tick| owner(plan, tick)).collect())
}

/// The owners one behind the other, again and again, for so many ticks.
pub fn repeating(owners: &[u16], ticks: usize) -> Vec<u16> {
    owners.iter().copied().cycle().take(ticks).collect()
}

/// One run of partition 1 from a tick on, across the frame's end too, and another owner's ticks.
pub fn one_run(ticks: usize, start: usize, length: usize, other: u16) -> Vec<u16> {
    let mut plan = [vec![1; length], vec![other; ticks - length]].concat();
    plan.rotate_right(start);
    plan
}

/// The builder's plan for the table, turned to another start and repeated some times within
/// `longest`; none where the builder refuses. It serves in edition 1.
pub fn serving(rng: &mut Rng, granule: u64, parts: &[u16], longest: usize) -> Option<Vec<u16>> {
    let mut out = vec![0; FRAME];
    let answer = builder::build(granule, parts, &mut out);
    let frame = answer.first as usize;
    if answer.number != 0 || frame > longest {
        return None;
    }
    let mut plan = out[..frame].to_vec();
    plan.rotate_left(rng.between(0, frame - 1));
    let times = rng.between(1, (longest / frame).min(3));
    Some(plan.repeat(times))
}

/// A plan and a table that it serves in this edition with this granule.
#[derive(Clone, Debug)]
pub struct Served {
    pub edition: Edition,
    pub granule: u64,
    pub plan: Vec<u16>,
    pub parts: Vec<u16>,
}

/// A serving plan for a table of up to `count` partitions. The granule must not be longer than
/// `longest`.
pub fn served(
    rng: &mut Rng,
    edition: Edition,
    granule: u64,
    count: usize,
    longest: usize,
) -> Served {
    match edition {
        Edition::One => built(rng, granule, count, longest),
        Edition::Two => with_switch_ticks(rng, granule, count, longest),
    }
}

/// The builder's plan, found by trying tables.
fn built(rng: &mut Rng, granule: u64, count: usize, longest: usize) -> Served {
    loop {
        let parts = tables::some_harmonic(rng, granule, count, longest);
        if let Some(plan) = serving(rng, granule, &parts, longest) {
            return Served {
                edition: Edition::One,
                granule,
                plan,
                parts,
            };
        }
    }
}

/// A run for each partition that leaves it a granule behind the switch tick, and any other runs
/// between them: the builder's plans have switch ticks that their tables can't spare.
fn with_switch_ticks(rng: &mut Rng, granule: u64, count: usize, longest: usize) -> Served {
    let shortest = granule as usize + 1;
    let partitions = rng.between(1, count.min(longest / shortest));
    let frame = rng.between(partitions * shortest, longest);
    let mut runs: Vec<Vec<u16>> = (1..=partitions as u16).map(|p| vec![p; shortest]).collect();
    let mut left = frame.saturating_sub(partitions * shortest);
    while left > 0 {
        let length = rng.between(1, left);
        runs.push(vec![rng.between(0, partitions) as u16; length]);
        left -= length;
    }
    rng.shuffle(&mut runs);
    let mut plan = runs.concat();
    plan.rotate_left(rng.between(0, frame - 1));
    if partitions == 1 && (longest < shortest || rng.one_in(4)) {
        plan = vec![1; frame.min(longest)];
    }
    by_its_service(rng, Edition::Two, granule, plan, partitions)
}

/// A plan with a table that it serves; each partition has a granule of service ticks.
fn by_its_service(
    rng: &mut Rng,
    edition: Edition,
    granule: u64,
    plan: Vec<u16>,
    partitions: usize,
) -> Served {
    let service = Service::new(edition, &plan);
    Served {
        edition,
        granule,
        parts: tables::served_by(rng, granule, &service, partitions),
        plan,
    }
}

/// Sixteen partitions in the longest frame, and a plan that repeats within it.
pub fn of_sixteen(rng: &mut Rng, edition: Edition) -> Served {
    let parts = tables::sixteen(rng);
    let short = serving(rng, 1, &parts, 128).unwrap_or_default();
    if edition == Edition::One {
        return Served {
            edition,
            granule: 1,
            plan: short.repeat(32),
            parts,
        };
    }
    // Of each tick two, so that each run has more than its switch tick.
    let longer = short.iter().flat_map(|&owner| [owner; 2]).collect();
    let served = by_its_service(rng, edition, 1, longer, 16);
    Served {
        plan: served.plan.repeat(16),
        ..served
    }
}

/// How many service ticks that partition has in a frame which has the fewest.
fn fewest(edition: Edition, plan: &[u16], partitions: usize) -> usize {
    let service = Service::new(edition, plan);
    let of = |p: usize| service.held(p as u16, 0, plan.len() as u32) as usize;
    (1..=partitions).map(of).min().unwrap_or(0)
}

/// A plan of one run, of runs of one length (one tick, or two where a tick is spent on switching),
/// or of any runs.
fn of_some_runs(rng: &mut Rng, edition: Edition, frame: usize) -> (Vec<u16>, usize) {
    let partitions = rng.between(1, frame.min(4));
    match rng.between(0, 2) {
        0 => (vec![1; frame], 1),
        1 => {
            let idle = rng.between(0, 1);
            let owners = (0..=partitions as u16).skip(idle);
            let length = edition.number() as usize;
            let owners: Vec<u16> = owners.flat_map(|owner| vec![owner; length]).collect();
            let frame = frame.max(owners.len());
            (repeating(&owners, frame), partitions)
        }
        _ => {
            let mut plan = in_runs_up_to(rng, frame, partitions, frame);
            let first = rng.between(0, frame - 1);
            for p in 1..=partitions {
                plan[(first + p) % frame] = p as u16;
            }
            (plan, partitions)
        }
    }
}

/// A plan of one of several shapes, and a table that it serves. Plans in which a partition has no
/// service are passed over.
pub fn of_some_shape(rng: &mut Rng, longest: usize) -> Served {
    let edition = editions::good(rng);
    let frame = rng.between(1, longest);
    if rng.one_in(4) {
        let granule = granules::up_to(rng, frame);
        return served(rng, edition, granule, 4, frame);
    }
    loop {
        let (plan, partitions) = of_some_runs(rng, edition, frame);
        let fewest = fewest(edition, &plan, partitions);
        if fewest > 0 {
            let granule = granules::up_to(rng, fewest);
            return by_its_service(rng, edition, granule, plan, partitions);
        }
    }
}

/// Another owner in one tick.
pub fn damage(rng: &mut Rng, plan: &mut [u16], partitions: usize) {
    if plan.is_empty() {
        return;
    }
    let tick = rng.between(0, plan.len() - 1);
    plan[tick] = rng.between(0, partitions) as u16;
}
