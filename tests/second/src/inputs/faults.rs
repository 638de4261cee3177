//! Faults: counts and records that break the rules, or just do not.

use super::tables;
use crate::rng::Rng;

/// Numbers at and beside the limits.
pub const EDGES: [u16; 20] = [
    0, 1, 2, 3, 15, 16, 17, 127, 128, 129, 999, 1000, 1001, 4095, 4096, 4097, 32767, 32768, 65534,
    65535,
];

/// A number at an edge, or a neighbour of what it was.
pub fn beside(rng: &mut Rng, number: u16) -> u16 {
    match rng.between(0, 3) {
        0 => number.wrapping_add(1),
        1 => number.wrapping_sub(1),
        _ => rng.pick(&EDGES),
    }
}

/// One number of the table goes beside what it was.
fn one_number(rng: &mut Rng, numbers: &mut [u16]) {
    if numbers.is_empty() {
        return;
    }
    let at = rng.between(0, numbers.len() - 1);
    numbers[at] = beside(rng, numbers[at]);
}

/// A count fault, or a record fault (the more likely).
pub fn partitions(rng: &mut Rng, parts: &mut Vec<u16>, frame: usize) {
    match rng.between(0, 11) {
        0 => parts.push(1),
        1 => drop(parts.pop()),
        2 => parts.clear(),
        3 => *parts = tables::partitions(rng, 17, frame),
        4 => longer_cycle(rng, parts, frame),
        _ => one_number(rng, parts),
    }
}

/// "a partition whose cycle is longer than F is a bad record".
fn longer_cycle(rng: &mut Rng, parts: &mut [u16], frame: usize) {
    let records = parts.len() / 3;
    if records > 0 {
        let record = rng.between(0, records - 1);
        parts[3 * record] = (frame + rng.between(1, 2)) as u16;
    }
}

pub fn tasks(rng: &mut Rng, tasks: &mut Vec<u16>, partitions: usize) {
    match rng.between(0, 11) {
        0 => tasks.push(1),
        1 => drop(tasks.pop()),
        2 => *tasks = tables::tasks(rng, 129, partitions, 9),
        3 => *tasks = tables::tasks(rng, 128, partitions, 9),
        _ => one_number(rng, tasks),
    }
}

pub fn plan(rng: &mut Rng, plan: &mut Vec<u16>, partitions: usize) {
    match rng.between(0, 19) {
        0 => plan.clear(),
        1 => plan.resize(4097, 0),
        2 => drop(plan.pop()),
        3 => plan.push(0),
        _ => bad_tick(rng, plan, partitions),
    }
}

fn bad_tick(rng: &mut Rng, plan: &mut [u16], partitions: usize) {
    if plan.is_empty() {
        return;
    }
    let tick = rng.between(0, plan.len() - 1);
    plan[tick] = rng.pick(&[partitions as u16 + 1, 16, 17, 255, 256, 65535]);
}

pub fn runs(rng: &mut Rng, runs: &mut Vec<u16>) {
    match rng.between(0, 13) {
        0 => runs.push(1),
        1 => drop(runs.pop()),
        2 => runs.clear(),
        3 => runs.resize(2 * 4097, 1),
        4 => runs.extend([1, 1]),
        5 => runs.truncate(runs.len() / 2 * 2 - 2 * usize::from(runs.len() > 2)),
        6 => equal_neighbours(rng, runs),
        7 => wrapping_lengths(rng, runs),
        _ => one_number(rng, runs),
    }
}

fn equal_neighbours(rng: &mut Rng, runs: &mut [u16]) {
    let records = runs.len() / 2;
    if records > 1 {
        let later = rng.between(1, records - 1);
        runs[2 * later] = runs[2 * later - 2];
    }
}

/// Lengths that add up to the frame in two bytes only.
pub fn wrapping_lengths(rng: &mut Rng, runs: &mut Vec<u16>) {
    let owner = runs.first().map_or(1, |first| u16::from(*first == 0));
    let more = rng.between(1, 65535) as u16;
    let rest = 0u16.wrapping_sub(more);
    let at = rng.between(0, runs.len() / 2);
    runs.splice(2 * at..2 * at, [owner, more, 1 - owner, rest]);
}
