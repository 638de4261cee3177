//! The listing of a plan file, by the file's edition. "the listing program keeps g = 1".

use crate::answer::Answer;
use crate::service::Service;
use crate::{file, plan, ticks, verdict};

/// The listing's bytes into `out`; 12 where they do not fit.
pub fn list(bytes: &[u8], out: &mut [u8]) -> Answer {
    let text = text(bytes);
    if out.len() < text.len() {
        return Answer::refused(12);
    }
    out[..text.len()].copy_from_slice(text.as_bytes());
    Answer::good([text.len() as u64, 0, 0, 0])
}

/// "Any refusal prints only one line, as `refused 9`, with its number."
pub fn text(bytes: &[u8]) -> String {
    match listed(bytes) {
        Ok(text) => text,
        Err(refusal) => format!("refused {}\n", refusal.number),
    }
}

fn listed(bytes: &[u8]) -> Result<String, Answer> {
    let file = file::parse(bytes)?;
    let service = Service::new(file.edition, &ticks::of_runs(&file.runs));
    plan::serves(&service, 1, &file.partitions)?;
    let mut text = format!("frame {}\n", file.frame);
    for (index, partition) in file.partitions.iter().enumerate() {
        let p = index + 1;
        let (wants, m) = (partition.wants(1), partition.cycle);
        let least = service.least(p as u16, u32::from(m));
        text += &format!("partition {p} wants {wants} in {m} least {least}\n");
    }
    for (index, task) in file.tasks.iter().enumerate() {
        let place = index + 1;
        let point = verdict::passing_point(&service, &file.tasks, place);
        let tick = verdict::passing_tick(&service, &file.tasks, place);
        // "A failing task ends in `fail`."; "W1's last line becomes
        // `task 1 partition 1 pass 4 tick 3`"
        let end = match [point, tick] {
            [0, 0] => String::from("fail"),
            _ => format!("pass {point} tick {tick}"),
        };
        text += &format!("task {place} partition {} {end}\n", task.partition);
    }
    Ok(text)
}
