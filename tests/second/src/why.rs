//! The page as text: "why the task with that number, from 1 on, passes or fails, by the file's
//! edition" (docs/FORMAT.md, "The page").

use crate::answer::Answer;
use crate::page::{self, Row};
use crate::service::Service;
use crate::{file, plan, ticks, verdict, words};

/// "the task's number as its only word [...]. Any other word, none, or more than one names no task":
/// those are 0.
pub fn place(words: &[&str]) -> u64 {
    match words {
        [word] => words::number(word).unwrap_or(0),
        _ => 0,
    }
}

/// "A file that isn't accepted, or whose plan doesn't serve, gives one line".
pub fn text(place: u64, bytes: &[u8]) -> String {
    told(place, bytes).unwrap_or_else(|refusal| format!("refused {}\n", refusal.number))
}

/// The reader's refusals, then "a task that isn't in the file is `refused 7`", then 9.
fn told(place: u64, bytes: &[u8]) -> Result<String, Answer> {
    let file = file::parse(bytes)?;
    let place = usize::try_from(place).unwrap_or(0);
    if place == 0 || place > file.tasks.len() {
        return Err(Answer::refused_at(7, 0));
    }
    let service = Service::new(file.edition, &ticks::of_runs(&file.runs));
    plan::serves(&service, 1, &file.partitions)?;
    let partition = file.tasks[place - 1].partition;
    let task = format!("task {place} partition {partition}");
    Ok(match verdict::passing_point(&service, &file.tasks, place) {
        0 => fails(&task, &page::rows(&service, &file.tasks, place)),
        point => {
            let needs = verdict::demand(&file.tasks, place, point);
            let has = service.least(partition, point as u32);
            passes(&task, [point, needs, has])
        }
    })
}

/// "A task that passes has two lines, about the point that the listing tells".
fn passes(task: &str, [point, needs, has]: [u64; 3]) -> String {
    let spare = has - needs;
    let sure = sure(point, needs, has);
    format!("{task} passes\n{sure}: {spare} to spare\n")
}

/// "A line for each scheduling point", and one about the tightest.
fn fails(task: &str, rows: &[Row]) -> String {
    let tightest = page::named(rows);
    let mut text = format!("{task} fails\n");
    text += "   point   needs     has   short   worst stretch in wall ticks\n";
    for row in rows {
        let mark = if *row == tightest {
            "  <- tightest"
        } else {
            ""
        };
        text += &line(row);
        text += mark;
        text += "\n";
    }
    let (short, start) = (tightest.shortage(), tightest.start);
    let sure = sure(tightest.point, tightest.demand, tightest.least);
    text + &format!("{sure}: {short} short; the worst stretch starts at tick {start}\n")
}

/// "The four numbers end in columns 8, 16, 24 and 32", and "e is s + t − 1".
fn line(row: &Row) -> String {
    let numbers = [row.point, row.demand, row.least, row.shortage()];
    let columns = numbers.map(|number| format!("{number:>8}")).concat();
    let end = row.start + row.point - 1;
    format!("{columns}   {} to {end}", row.start)
}

fn sure(point: u64, needs: u64, has: u64) -> String {
    format!("at tick {point} it needs {needs} and can be sure of {has}")
}
