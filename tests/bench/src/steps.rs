//! The library's own method once more, in Rust: a partition's curve of least service, walked once from
//! behind each of its runs that serve it, and what its higher tasks ask, kept up by steps. It is given
//! good tables: of what tells against a plan only 9 is looked for.

use second::records::{self, Partition, Task};
use second::{file, ticks, Answer};

use crate::page;
use crate::rule;
use crate::walk;

/// Fewer numbers are drawn sooner than a shorter frame is found.
const FEW: usize = 64;

/// After how many ticks those of p repeat, as soon as can be. Which of them are switch ticks repeats
/// with them.
pub fn repeated(plan: &[u16], p: u16) -> usize {
    let own = |owner: &u16| *owner == p;
    let repeats = |m: usize| {
        let mut pairs = plan.iter().zip(&plan[m..]);
        plan.len() % m == 0 && pairs.all(|(one, later)| own(one) == own(later))
    };
    let shorter = (1..=plan.len() / 2).find(|&m| repeats(m));
    shorter.unwrap_or(plan.len())
}

/// Each number lowered to what as many ticks from the start on hold: up to the plan's end, and on from
/// its beginning.
fn lower<const EDITION: u64>(plan: &[u16], p: u16, start: usize, list: &mut [u32]) {
    let mut held = 0;
    let (behind, ahead) = plan.split_at(start);
    let (first, rest) = list.split_at_mut(ahead.len().min(list.len()));
    let mut before = rule::before(plan, start);
    for (row, ticks) in [(first, ahead), (rest, behind)] {
        for (least, &owner) in row.iter_mut().zip(ticks) {
            *least = held.min(*least);
            held += u32::from(owner == p && (EDITION == 1 || before == p));
            before = owner;
        }
        if let Some(last) = row.get_mut(ticks.len()) {
            *last = held.min(*last);
        }
    }
}

/// The least service of as many ticks as each place of the list says; behind a frame and one tick a frame
/// more holds as much more as a frame holds.
pub fn draw<const EDITION: u64>(plan: &[u16], p: u16, list: &mut [u32]) {
    let plan = if list.len() < FEW {
        plan
    } else {
        &plan[..repeated(plan, p)]
    };
    let within = list.len().min(plan.len() + 1);
    let frame = &mut list[..within];
    for (least, t) in frame.iter_mut().zip(0..) {
        *least = t;
    }
    for start in 0..plan.len() {
        if start == 0 || plan[start] != p && rule::own::<EDITION>(plan, start - 1, p) {
            lower::<EDITION>(plan, p, start, frame);
        }
    }
    for t in within..list.len() {
        list[t] = list[t - plan.len()] + list[plan.len()];
    }
}

pub fn curve<const EDITION: u64>(plan: &[u16], p: u16, list: &mut [u32]) -> Answer {
    draw::<EDITION>(plan, p, list);
    Answer::good([list.len() as u64, 0, 0, 0])
}

/// Adds what one more higher task asks of each t: one C more from behind each multiple of its period up to the next.
fn add(asks: &mut [u32], task: &Task) {
    let mut all = 0;
    for row in asks[1..].chunks_mut(task.t as usize) {
        all += task.c as u32;
        for asked in row {
            *asked += all;
        }
    }
}

/// What is known of a partition, up to its longest deadline: the least service of each t, and what
/// the tasks that were added ask.
struct Known {
    curve: Vec<u32>,
    asks: Vec<u32>,
}

impl Known {
    fn new<const EDITION: u64>(plan: &[u16], p: u16, longest: u64) -> Known {
        let mut curve = vec![0; longest as usize + 1];
        draw::<EDITION>(plan, p, &mut curve);
        let asks = vec![0; curve.len()];
        Known { curve, asks }
    }

    /// The smallest tick up to D that is tried and holds, or 0.
    fn earliest(&self, task: &Task, tried: impl Fn(&[u32], usize) -> bool) -> u64 {
        let (c, end) = (task.c as u32, task.d as usize + 1);
        let (asks, curve) = (&self.asks[..end], &self.curve[..end]);
        let holds = |&t: &usize| c + asks[t] <= curve[t] && tried(asks, t);
        (1..end).find(holds).unwrap_or(0) as u64
    }

    /// The smallest tick that holds, or 0.
    fn tick(&self, task: &Task) -> u64 {
        self.earliest(task, |_, _| true)
    }

    /// The smallest scheduling point that holds, or 0. What is asked rises right behind a multiple of
    /// a higher task's period.
    fn point(&self, task: &Task) -> u64 {
        let d = task.d as usize;
        self.earliest(task, |asks, t| t == d || asks[t] < asks[t + 1])
    }
}

type Engine = fn(&Known, &Task) -> u64;

/// What is known of the task at a place, up to its deadline.
fn known<'a, const EDITION: u64>(
    plan: &[u16],
    tasks: &'a [Task],
    place: usize,
) -> (Known, &'a Task) {
    let task = &tasks[place - 1];
    let mut known = Known::new::<EDITION>(plan, task.partition, task.d);
    for higher in &tasks[..place - 1] {
        if higher.partition == task.partition {
            add(&mut known.asks, higher);
        }
    }
    (known, task)
}

fn earliest<const EDITION: u64>(plan: &[u16], tasks: &[Task], place: usize, engine: Engine) -> u64 {
    let (known, task) = known::<EDITION>(plan, tasks, place);
    engine(&known, task)
}

fn judged<const EDITION: u64>(
    plan: &[u16],
    parts: &[u16],
    tasks: &[u16],
    place: usize,
    engine: Engine,
) -> Answer {
    let served = walk::check::<EDITION>(plan, parts);
    match records::tasks(tasks) {
        Ok(tasks) if served.number == 0 => {
            let earliest = earliest::<EDITION>(plan, &tasks, place, engine);
            Answer::good([earliest, 0, 0, 0])
        }
        Ok(_) => served,
        Err(refusal) => refusal,
    }
}

pub fn verdict<const EDITION: u64>(
    plan: &[u16],
    parts: &[u16],
    tasks: &[u16],
    place: usize,
) -> Answer {
    judged::<EDITION>(plan, parts, tasks, place, Known::point)
}

pub fn plain<const EDITION: u64>(
    plan: &[u16],
    parts: &[u16],
    tasks: &[u16],
    place: usize,
) -> Answer {
    judged::<EDITION>(plan, parts, tasks, place, Known::tick)
}

/// A row for each scheduling point, and the first of those that fall short by the least.
fn rows<const EDITION: u64>(plan: &[u16], known: &Known, task: &Task, list: &mut [u32]) -> Answer {
    let (asks, curve, d) = (&known.asks, &known.curve, task.d as usize);
    let points = || (1..=d).filter(|&t| t == d || asks[t] < asks[t + 1]);
    let count = points().count();
    if list.len() < 4 * count {
        return Answer::refused(12);
    }
    let demand = |t: usize| task.c as u32 + asks[t];
    for (row, t) in list.chunks_mut(4).zip(points()) {
        let start = walk::worst_start::<EDITION>(plan, task.partition, t, curve[t].into());
        row.copy_from_slice(&[t as u32, demand(t), curve[t], start as u32]);
    }
    let shortage = |&t: &usize| demand(t) - curve[t];
    let tightest = points().min_by_key(shortage).unwrap_or(d);
    Answer::good([0, count as u64, tightest as u64, shortage(&tightest).into()])
}

pub fn page<const EDITION: u64>(
    plan: &[u16],
    parts: &[u16],
    tasks: &[u16],
    place: usize,
    list: &mut [u32],
) -> Answer {
    let served = walk::check::<EDITION>(plan, parts);
    match records::tasks(tasks) {
        Ok(tasks) if served.number == 0 => {
            let (known, task) = known::<EDITION>(plan, &tasks, place);
            match known.point(task) {
                0 => rows::<EDITION>(plan, &known, task, list),
                point => Answer::good([point, 0, 0, 0]),
            }
        }
        Ok(_) => served,
        Err(refusal) => refusal,
    }
}

/// Judges the tasks of one partition by one curve; each has its end at its own place.
fn judge<const EDITION: u64>(plan: &[u16], p: u16, tasks: &[Task], ends: &mut [[u64; 2]]) {
    let own = |task: &Task| task.partition == p;
    let deadlines = tasks.iter().filter(|task| own(task)).map(|task| task.d);
    let Some(longest) = deadlines.max() else {
        return;
    };
    let mut known = Known::new::<EDITION>(plan, p, longest);
    for (task, end) in tasks.iter().zip(ends) {
        if own(task) {
            *end = [known.point(task), known.tick(task)];
            add(&mut known.asks, task);
        }
    }
}

/// Of a file of this edition.
pub fn list<const EDITION: u64>(bytes: &[u8]) -> Result<String, Answer> {
    let file = file::parse(bytes)?;
    assert_eq!(file.edition.number(), EDITION);
    let plan = ticks::of_runs(&file.runs);
    walk::serves::<EDITION>(&plan, &file.partitions)?;
    let least = |(partition, p): (&Partition, u16)| walk::least::<EDITION>(&plan, p, partition.m());
    let leasts: Vec<u64> = file.partitions.iter().zip(1..).map(least).collect();
    let mut ends = vec![[0; 2]; file.tasks.len()];
    for (_, p) in file.partitions.iter().zip(1..) {
        judge::<EDITION>(&plan, p, &file.tasks, &mut ends);
    }
    Ok(page::text(&file, &leasts, &ends))
}
