//! "The plan file": reader, sections, writer.

use std::ops::Range;

use crate::answer::Answer;
use crate::editions::Edition;
use crate::limits::{PARTITIONS, RUNS, TASKS};
use crate::records::{self, Partition, Run, Task};

const CONTENTS: usize = 16;

/// The numbers of the contents.
struct Contents {
    edition: Edition,
    frame: u64,
    counts: [usize; 3],
}

/// An accepted file, taken apart.
pub struct PlanFile {
    pub edition: Edition,
    pub frame: u64,
    pub partitions: Vec<Partition>,
    pub tasks: Vec<Task>,
    pub runs: Vec<Run>,
}

/// "Partition: cycle, num, den. Task: partition, C, D, T. Run: owner, length", two bytes each.
fn bodies(counts: [usize; 3]) -> [Range<usize>; 3] {
    let tasks = CONTENTS + 6 * counts[0];
    let runs = tasks + 8 * counts[1];
    let end = runs + 4 * counts[2];
    [CONTENTS..tasks, tasks..runs, runs..end]
}

/// "Numbers of two bytes, high byte first."
fn numbers(bytes: &[u8]) -> Vec<u16> {
    let pairs = bytes.chunks_exact(2);
    pairs
        .map(|pair| u16::from(pair[0]) * 256 + u16::from(pair[1]))
        .collect()
}

/// 1 to 5: all that can be said without the bodies.
fn contents(file: &[u8]) -> Result<Contents, Answer> {
    if file.len() < CONTENTS {
        return Err(Answer::refused(1));
    }
    let said = numbers(&file[..CONTENTS]);
    let edition = Edition::of(said[0].into())?;
    let frame = u64::from(said[1]);
    let counts = [3, 5, 7].map(|at| usize::from(said[at]));
    records::frame(frame)?;
    records::within(counts[0], 1, PARTITIONS)?;
    records::within(counts[1], 0, TASKS)?;
    records::within(counts[2], 1, RUNS)?;
    let bodies = bodies(counts);
    let offsets = [2, 4, 6].map(|at| usize::from(said[at]));
    if offsets != [bodies[0].start, bodies[1].start, bodies[2].start] {
        return Err(Answer::refused(4));
    }
    if file.len() != bodies[2].end {
        return Err(Answer::refused(5));
    }
    Ok(Contents {
        edition,
        frame,
        counts,
    })
}

/// 1 to 8.
pub fn parse(file: &[u8]) -> Result<PlanFile, Answer> {
    let contents = contents(file)?;
    let [parts, tasks, runs] = bodies(contents.counts).map(|body| numbers(&file[body]));
    let plan_file = PlanFile {
        edition: contents.edition,
        frame: contents.frame,
        partitions: records::partitions(&parts)?,
        tasks: records::tasks(&tasks)?,
        runs: records::runs(&runs)?,
    };
    record_rules(&plan_file)?;
    Ok(plan_file)
}

/// 6, 7, 8, which the reader and the writer share.
fn record_rules(file: &PlanFile) -> Result<(), Answer> {
    let partitions = file.partitions.len();
    records::partition_rules(&file.partitions, file.frame as usize)?;
    records::task_rules(&file.tasks, partitions)?;
    records::run_rules(&file.runs, partitions, file.frame)
}

/// The reader: the frame, how many partitions, tasks and runs there are, and the edition.
pub fn read(file: &[u8]) -> Answer {
    match parse(file) {
        Ok(good) => Answer {
            number: 0,
            first: good.frame,
            second: good.partitions.len() as u64,
            third: good.tasks.len() as u64,
            fourth: good.runs.len() as u64,
            fifth: good.edition.number(),
        },
        Err(refusal) => refusal,
    }
}

/// Where a body of an accepted file starts and ends: 0 partitions, 1 tasks, 2 runs; any other is
/// empty. A file that isn't accepted has no bodies, and is answered as by the reader.
pub fn section(file: &[u8], which: u64) -> Answer {
    let good = match parse(file) {
        Ok(good) => good,
        Err(refusal) => return refusal,
    };
    let counts = [good.partitions.len(), good.tasks.len(), good.runs.len()];
    let which = usize::try_from(which).unwrap_or(usize::MAX);
    let body = bodies(counts).get(which).cloned().unwrap_or(0..0);
    Answer::good([body.start as u64, body.end as u64, 0, 0])
}

/// The writer: 2, 3, 6, 7, 8, 12. Only the file's bytes of `out` are written.
pub fn write(
    edition: u64,
    frame: u64,
    parts: &[u16],
    tasks: &[u16],
    runs: &[u16],
    out: &mut [u8],
) -> Answer {
    match written(edition, frame, parts, tasks, runs) {
        Ok(bytes) if bytes.len() <= out.len() => {
            out[..bytes.len()].copy_from_slice(&bytes);
            Answer::good([bytes.len() as u64, 0, 0, 0])
        }
        Ok(_) => Answer::refused(12),
        Err(refusal) => refusal,
    }
}

/// The bytes of a plan file, or why there are none.
pub fn written(
    edition: u64,
    frame: u64,
    parts: &[u16],
    tasks: &[u16],
    runs: &[u16],
) -> Result<Vec<u8>, Answer> {
    let file = PlanFile {
        edition: Edition::of(edition)?,
        frame,
        partitions: records::partitions(parts)?,
        tasks: records::tasks(tasks)?,
        runs: records::runs(runs)?,
    };
    records::frame(frame)?;
    record_rules(&file)?;
    let counts = [file.partitions.len(), file.tasks.len(), file.runs.len()];
    let mut said = vec![edition as u16, frame as u16];
    for (body, count) in bodies(counts).iter().zip(counts) {
        said.extend([body.start as u16, count as u16]);
    }
    let all = [&said, parts, tasks, runs].concat();
    Ok(all.iter().flat_map(|number| number.to_be_bytes()).collect())
}
