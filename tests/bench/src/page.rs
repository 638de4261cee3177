//! The text of a listing, from what a method has worked out.

use second::file::PlanFile;

use crate::walk;

/// `leasts` has each partition's least service of its cycle, `ends` each task's point and tick, or
/// zeros where it fails.
pub fn text(file: &PlanFile, leasts: &[u64], ends: &[[u64; 2]]) -> String {
    let mut text = format!("frame {}\n", file.frame);
    for ((partition, least), p) in file.partitions.iter().zip(leasts).zip(1..) {
        let (wants, m) = (walk::wants(partition), partition.m());
        text += &format!("partition {p} wants {wants} in {m} least {least}\n");
    }
    for ((task, end), place) in file.tasks.iter().zip(ends).zip(1..) {
        let end = match end {
            [0, _] => String::from("fail"),
            [point, tick] => format!("pass {point} tick {tick}"),
        };
        text += &format!("task {place} partition {} {end}\n", task.partition);
    }
    text
}
