//! The listing without a curve, in Rust: at every point and every tick that is tried, the least service
//! of so many ticks is worked out by itself, and what the higher tasks ask by division. How it is
//! worked out is a parameter: by the walk, as the library did before it had the curve, or by counting
//! each stretch anew. It is given files that are accepted.

use second::records::{Partition, Task};
use second::{file, ticks, Answer};

use crate::page;
use crate::walk;

/// The higher tasks of the same partition.
fn rivals(tasks: &[Task], place: usize) -> impl Iterator<Item = &Task> {
    let partition = tasks[place - 1].partition;
    let higher = tasks[..place - 1].iter();
    higher.filter(move |rival| rival.partition == partition)
}

/// What the task and its rivals ask of t ticks.
fn demand(tasks: &[Task], place: usize, t: u64) -> u64 {
    let asked = rivals(tasks, place).map(|rival| rival.c * t.div_ceil(rival.t));
    tasks[place - 1].c + asked.sum::<u64>()
}

fn point(tasks: &[Task], place: usize, t: u64) -> bool {
    t == tasks[place - 1].d || rivals(tasks, place).any(|rival| t % rival.t == 0)
}

/// The smallest scheduling point and the smallest tick that hold, or zeros; no tick is looked for where
/// no point holds.
fn judged(tasks: &[Task], place: usize, mut least: impl FnMut(usize) -> u64) -> [u64; 2] {
    let mut holds = |t: &u64| demand(tasks, place, *t) <= least(*t as usize);
    let mut ticks = 1..=tasks[place - 1].d;
    let found = ticks.find(|t| point(tasks, place, *t) && holds(t));
    match found {
        Some(found) => [found, (1..=found).find(holds).unwrap_or(0)],
        None => [0, 0],
    }
}

/// The listing of a file, by `least` of a plan, a partition and a number of ticks.
pub fn list(
    bytes: &[u8],
    mut least: impl FnMut(&[u16], u16, usize) -> u64,
) -> Result<String, Answer> {
    let file = file::parse(bytes)?;
    let plan = ticks::of_runs(&file.runs);
    let mut of_cycle = |(partition, p): (&Partition, u16)| least(&plan, p, partition.m());
    let cycles = || file.partitions.iter().zip(1..);
    if !cycles().all(|one| of_cycle(one) >= walk::wants(one.0)) {
        return Err(Answer::refused(9));
    }
    let leasts: Vec<u64> = cycles().map(of_cycle).collect();
    let places = file.tasks.iter().zip(1..);
    let ends =
        places.map(|(task, place)| judged(&file.tasks, place, |t| least(&plan, task.partition, t)));
    let ends: Vec<[u64; 2]> = ends.collect();
    Ok(page::text(&file, &leasts, &ends))
}
