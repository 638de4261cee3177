//! Plan files: their tables, their bytes, and faults in the bytes.

use super::{editions, faults, plans, tables};
use crate::rng::Rng;
use crate::ticks;

#[derive(Clone, Debug, PartialEq)]
pub struct Tables {
    pub edition: u64,
    pub frame: u64,
    pub parts: Vec<u16>,
    pub tasks: Vec<u16>,
    pub runs: Vec<u16>,
}

impl Tables {
    /// The file's bytes, whether the rules are kept or not.
    pub fn bytes(&self) -> Vec<u8> {
        let tasks = 16 + 2 * self.parts.len();
        let runs = tasks + 2 * self.tasks.len();
        let counts = [self.partitions(), self.tasks.len() / 4, self.runs.len() / 2];
        let said = [
            self.edition as usize,
            self.frame as usize,
            16,
            counts[0],
            tasks,
            counts[1],
            runs,
            counts[2],
        ];
        let said = said.map(|number| number as u16);
        let all = [&said, &self.parts[..], &self.tasks, &self.runs].concat();
        all.iter().flat_map(|number| number.to_be_bytes()).collect()
    }

    pub fn partitions(&self) -> usize {
        self.parts.len() / 3
    }
}

/// Good tables, whether the plan serves or not.
pub fn tables(rng: &mut Rng, longest: usize) -> Tables {
    let frame = rng.between(1, longest);
    let count = rng.pick(&[1, 2, 3, 4, 16]);
    let plan = if rng.one_in(2) {
        plans::in_runs(rng, frame, count)
    } else {
        plans::scattered(rng, frame, count)
    };
    let task_count = rng.pick(&[0, 1, 2, 3, 5]);
    Tables {
        edition: editions::good(rng).number(),
        frame: frame as u64,
        parts: tables::partitions(rng, count, frame),
        tasks: tables::tasks(rng, task_count, count, 4096),
        runs: ticks::to_runs(&plan),
    }
}

/// Good tables whose plan serves, with tasks that are worth judging.
pub fn serving(rng: &mut Rng, count: usize, longest: usize, task_count: usize) -> Tables {
    let edition = editions::good(rng);
    let plans::Served { plan, parts, .. } = plans::served(rng, edition, 1, count, longest);
    let partitions = parts.len() / 3;
    let period = rng.pick(&[8, 40, 100]);
    Tables {
        edition: edition.number(),
        frame: plan.len() as u64,
        tasks: tables::tasks(rng, task_count, partitions, period),
        runs: ticks::to_runs(&plan),
        parts,
    }
}

/// All counts at their limits: 16 partitions, 128 tasks, 4,096 runs of one tick.
pub fn largest(rng: &mut Rng) -> Tables {
    let plan: Vec<u16> = (0..4096).map(|tick| tick % 17).collect();
    Tables {
        edition: editions::good(rng).number(),
        frame: 4096,
        parts: tables::partitions(rng, 16, 4096),
        tasks: tables::tasks(rng, 128, 16, 4096),
        runs: ticks::to_runs(&plan),
    }
}

/// The number of two bytes at a place.
pub fn get(bytes: &[u8], at: usize) -> u16 {
    u16::from_be_bytes([bytes[at], bytes[at + 1]])
}

pub fn put(bytes: &mut [u8], at: usize, number: u16) {
    bytes[at..at + 2].copy_from_slice(&number.to_be_bytes());
}

/// A fault anywhere: in a number, in a byte, or in the length.
pub fn damage(rng: &mut Rng, bytes: &mut Vec<u8>) {
    if bytes.is_empty() {
        return bytes.push(0);
    }
    let last = bytes.len() - 1;
    match rng.between(0, 9) {
        0 => bytes.truncate(rng.between(0, last)),
        1 => bytes.extend(vec![0; rng.between(1, 9)]),
        2 => {
            let at = rng.between(0, last);
            bytes[at] = rng.between(0, 255) as u8;
        }
        3 => number(rng, bytes, last.min(15)),
        _ => number(rng, bytes, last),
    }
}

/// A whole number not past `last` goes beside what it was.
fn number(rng: &mut Rng, bytes: &mut [u8], last: usize) {
    if last >= 1 {
        let at = rng.between(0, (last - 1) / 2) * 2;
        let beside = faults::beside(rng, get(bytes, at));
        put(bytes, at, beside);
    }
}
