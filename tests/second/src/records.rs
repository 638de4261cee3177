//! The tables, and the rules for their counts (3), the granule (21) and the records (6, 7, 8).

use crate::answer::Answer;
use crate::limits::{CYCLE, FRAME, GRANULE, PARTITIONS, PERIOD, RUNS, SHARE, TASKS};
use crate::shares;

#[derive(Clone, Copy, Debug)]
pub struct Partition {
    pub cycle: u16,
    pub num: u16,
    pub den: u16,
}

impl Partition {
    pub fn m(&self) -> usize {
        usize::from(self.cycle)
    }

    pub fn wants(&self, granule: u64) -> u64 {
        shares::wants(granule, self.cycle, self.num, self.den)
    }
}

#[derive(Clone, Copy, Debug)]
pub struct Task {
    pub partition: u16,
    pub c: u64,
    pub d: u64,
    pub t: u64,
}

#[derive(Clone, Copy, Debug)]
pub struct Run {
    pub owner: u16,
    pub length: u64,
}

/// A stretch asked for: how many of the `length` ticks from `start` on are the partition's.
#[derive(Clone, Copy, Debug)]
pub struct Question {
    pub partition: usize,
    pub start: usize,
    pub length: usize,
}

/// The records of a flat table. One that is no whole number of records has no count: 3.
fn whole<const N: usize>(numbers: &[u16]) -> Result<Vec<[u16; N]>, Answer> {
    let mut records = Vec::new();
    for record in numbers.chunks(N) {
        records.push(record.try_into().map_err(|_| Answer::refused(3))?);
    }
    Ok(records)
}

/// "3: a count or frame outside its limits".
pub fn within(count: usize, least: usize, most: usize) -> Result<(), Answer> {
    if count < least || count > most {
        return Err(Answer::refused(3));
    }
    Ok(())
}

/// "Partitions 1 to 16".
pub fn partitions(numbers: &[u16]) -> Result<Vec<Partition>, Answer> {
    let records = whole(numbers)?;
    within(records.len(), 1, PARTITIONS)?;
    let partition = |[cycle, num, den]: [u16; 3]| Partition { cycle, num, den };
    Ok(records.into_iter().map(partition).collect())
}

/// "tasks 0 to 128".
pub fn tasks(numbers: &[u16]) -> Result<Vec<Task>, Answer> {
    let records = whole(numbers)?;
    within(records.len(), 0, TASKS)?;
    let task = |[partition, c, d, t]: [u16; 4]| Task {
        partition,
        c: u64::from(c),
        d: u64::from(d),
        t: u64::from(t),
    };
    Ok(records.into_iter().map(task).collect())
}

/// "runs 1 to 4,096".
pub fn runs(numbers: &[u16]) -> Result<Vec<Run>, Answer> {
    let records = whole(numbers)?;
    within(records.len(), 1, RUNS)?;
    let run = |[owner, length]: [u16; 2]| Run {
        owner,
        length: u64::from(length),
    };
    Ok(records.into_iter().map(run).collect())
}

/// As many as are asked, or none.
pub fn questions(numbers: &[u16]) -> Result<Vec<Question>, Answer> {
    let question = |record: [u16; 3]| {
        let [partition, start, length] = record.map(usize::from);
        Question {
            partition,
            start,
            length,
        }
    };
    Ok(whole(numbers)?.into_iter().map(question).collect())
}

/// "frame 1 to 4,096 ticks".
pub fn frame(ticks: u64) -> Result<(), Answer> {
    within(usize::try_from(ticks).unwrap_or(usize::MAX), 1, FRAME)
}

/// "g outside 1 to 16 is 21, after 3".
pub fn granule(granule: u64) -> Result<(), Answer> {
    if !(1..=GRANULE).contains(&granule) {
        return Err(Answer::refused(21));
    }
    Ok(())
}

/// "Cycle 1 to 4,096. Share num/den with 1 ≤ num ≤ den ≤ 1,000", and where a plan comes in
/// no cycle "longer than F".
pub fn partition_rules(partitions: &[Partition], frame: usize) -> Result<(), Answer> {
    for (index, partition) in partitions.iter().enumerate() {
        let cycle = 1 <= partition.m() && partition.m() <= CYCLE && partition.m() <= frame;
        let share = 1 <= partition.num && partition.num <= partition.den && partition.den <= SHARE;
        if !cycle || !share {
            return Err(Answer::refused_at(6, index + 1));
        }
    }
    Ok(())
}

/// "A task has 1 ≤ C ≤ D ≤ T ≤ 4,096 and names a partition of the table".
pub fn task_rules(tasks: &[Task], partitions: usize) -> Result<(), Answer> {
    for (index, task) in tasks.iter().enumerate() {
        let times = 1 <= task.c && task.c <= task.d && task.d <= task.t && task.t <= PERIOD;
        let named = 1 <= task.partition && usize::from(task.partition) <= partitions;
        if !times || !named {
            return Err(Answer::refused_at(7, index + 1));
        }
    }
    Ok(())
}

/// "an owner is 0 or a partition of the table", for a plan known as ticks.
pub fn tick_rules(plan: &[u16], partitions: usize) -> Result<(), Answer> {
    for (tick, &owner) in plan.iter().enumerate() {
        if usize::from(owner) > partitions {
            return Err(Answer::refused_at(8, tick + 1));
        }
    }
    Ok(())
}

/// "owner, length ≥ 1; neighbours differ; lengths add up to the frame". The place is "the run at
/// which the lengths pass the frame, or the last one if they stay under; of equal neighbours it is
/// the later".
pub fn run_rules(runs: &[Run], partitions: usize, frame: u64) -> Result<(), Answer> {
    let mut sum = 0;
    for (index, run) in runs.iter().enumerate() {
        sum += run.length;
        let last = index + 1 == runs.len();
        let record = usize::from(run.owner) <= partitions && run.length >= 1;
        let equal = index > 0 && runs[index - 1].owner == run.owner;
        let lengths = sum <= frame && !(last && sum < frame);
        if !record || equal || !lengths {
            return Err(Answer::refused_at(8, index + 1));
        }
    }
    Ok(())
}
