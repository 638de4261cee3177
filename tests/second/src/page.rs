//! "The page for the supplier" (ask 7 of document 02): "When a task fails, his engineer wants the
//! reason."

use crate::answer::Answer;
use crate::records::Task;
use crate::service::Service;
use crate::verdict;

/// So many numbers of the list are a row.
pub const ROW: usize = 4;

/// A scheduling point: "its demand, its least service and a worst start (the lowest)".
#[derive(Clone, Copy, Debug, PartialEq, Eq)]
pub struct Row {
    pub point: u64,
    pub demand: u64,
    pub least: u64,
    pub start: u64,
}

impl Row {
    /// Where a task fails it is above 0 at every point.
    pub fn shortage(&self) -> u64 {
        self.demand - self.least
    }

    /// As they stand in the list.
    pub fn numbers(&self) -> [u32; ROW] {
        [self.point, self.demand, self.least, self.start].map(|number| number as u32)
    }
}

/// The page of the task at a place from 1: the verdict's refusals, then "a list too short for a
/// failing task's points is 12". "A passing task lists nothing", and is answered as by the verdict. A
/// longer list keeps its tail.
pub fn page(
    edition: u64,
    granule: u64,
    plan: &[u16],
    parts: &[u16],
    tasks: &[u16],
    place: usize,
    list: &mut [u32],
) -> Answer {
    let judged = verdict::by_the_rules(edition, granule, plan, parts, tasks, place);
    let (service, tasks) = match judged {
        Ok(judged) => judged,
        Err(refusal) => return refusal,
    };
    match verdict::passing_point(&service, &tasks, place) {
        0 => written(&rows(&service, &tasks, place), list),
        point => Answer::good([point, 0, 0, 0]),
    }
}

fn written(rows: &[Row], list: &mut [u32]) -> Answer {
    if list.len() < ROW * rows.len() {
        return Answer::refused(12);
    }
    for (numbers, row) in list.chunks_mut(ROW).zip(rows) {
        numbers.copy_from_slice(&row.numbers());
    }
    let named = named(rows);
    Answer::good([0, rows.len() as u64, named.point, named.shortage()])
}

/// "for each scheduling point in rising order".
pub(crate) fn rows(service: &Service, tasks: &[Task], place: usize) -> Vec<Row> {
    let task = &tasks[place - 1];
    let worst = worst_up_to(service, task.partition, task.d as usize);
    let row = |point: u64| {
        let (least, start) = worst[point as usize];
        Row {
            point,
            demand: verdict::demand(tasks, place, point),
            least,
            start,
        }
    };
    let points = verdict::scheduling_points(tasks, place);
    points.into_iter().map(row).collect()
}

/// "the point with the smallest shortage, lowest point on equals"; there is at least D's.
pub(crate) fn named(rows: &[Row]) -> Row {
    let mut named = rows[0];
    for row in rows {
        if row.shortage() < named.shortage() {
            named = *row;
        }
    }
    named
}

/// For each t up to `longest` what the worst stretches hold, and the lowest start of one, walking on
/// from each start once. The frame has a tick.
fn worst_up_to(service: &Service, p: u16, longest: usize) -> Vec<(u64, u64)> {
    let mut worst = vec![(u64::MAX, 0); longest + 1];
    for start in 0..service.frame() {
        let mut held = 0;
        for (t, (least, lowest)) in worst.iter_mut().enumerate() {
            if held < *least {
                (*least, *lowest) = (held, start as u64);
            }
            if service.at(start + t) == p {
                held += 1;
            }
        }
    }
    worst
}

#[cfg(test)]
mod tests {
    use super::{named, page, rows, Row, ROW};
    use crate::answer::Answer;
    use crate::editions::Edition;
    use crate::inputs::{editions, granules, plans, tables};
    use crate::records::{self, Task};
    use crate::rng::Rng;
    use crate::service::Service;
    use crate::verdict::{passing_point, verdict};

    /// With a pencil: whether a tick is a point, how often each task is released before it, and each
    /// stretch counted anew.
    fn by_pencil(service: &Service, tasks: &[Task], place: usize) -> Vec<Row> {
        let asked = tasks[place - 1];
        let higher = || {
            let before = tasks[..place - 1].iter();
            before.filter(|task| task.partition == asked.partition)
        };
        let mut rows = Vec::new();
        for point in 1..=asked.d {
            if point < asked.d && !higher().any(|task| point % task.t == 0) {
                continue;
            }
            let mut demand = asked.c;
            for task in higher() {
                demand += task.c * (0..point).filter(|tick| tick % task.t == 0).count() as u64;
            }
            let held = |start: &usize| service.count(asked.partition, *start, point);
            let least = service.least(asked.partition, point as u32);
            let start = (0..service.frame()).find(|start| held(start) == least);
            rows.push(Row {
                point,
                demand,
                least,
                start: start.unwrap_or(usize::MAX) as u64,
            });
        }
        rows
    }

    /// The first row that no other falls below.
    fn smallest(rows: &[Row]) -> Option<&Row> {
        let below = |row: &Row| rows.iter().any(|other| other.shortage() < row.shortage());
        rows.iter().find(|row| !below(row))
    }

    #[test]
    fn the_rows_are_those_by_pencil() {
        let mut rng = Rng::new(12);
        let [mut many, mut equal, mut late] = [0; 3];
        for _ in 0..4000 {
            let frame = rng.between(1, 9);
            let plan = plans::in_runs(&mut rng, frame, 2);
            let service = Service::new(rng.pick(&Edition::BOTH), &plan);
            let numbers = tables::tasks(&mut rng, 4, 2, 30);
            let tasks = records::tasks(&numbers).unwrap_or_default();
            for place in 1..=tasks.len() {
                if passing_point(&service, &tasks, place) > 0 {
                    continue;
                }
                let wanted = by_pencil(&service, &tasks, place);
                let found = rows(&service, &tasks, place);
                assert_eq!(found, wanted, "{service:?} {tasks:?} {place}");
                let least = named(&found);
                assert_eq!(Some(&least), smallest(&wanted), "{found:?}");
                let same = |row: &&Row| row.shortage() == least.shortage();
                many += u64::from(found.len() > 5);
                equal += u64::from(found.iter().filter(same).count() > 1);
                late += u64::from(found.iter().any(|row| row.start > 3));
            }
        }
        let seen = [many, equal, late];
        assert!(seen.iter().all(|times| *times > 300), "{seen:?}");
    }

    /// A page of each task, in lists of some lengths, beside the verdict.
    #[test]
    fn as_the_verdict() {
        let mut rng = Rng::new(13);
        let [mut passed, mut failed, mut short, mut refused] = [0; 4];
        for _ in 0..3000 {
            let plans::Served {
                edition,
                granule,
                plan,
                parts,
            } = plans::of_some_shape(&mut rng, 9);
            let tasks = tables::tasks(&mut rng, 3, parts.len() / 3, 20);
            let edition = editions::or_other(&mut rng, edition.number());
            let granule = granules::or_other(&mut rng, granule);
            let place = rng.pick(&[0, 1, 2, 3, 3, 3, 4]);
            let numbers = rng.pick(&[0, 3, 4, 8, 40, 300]);
            let wanted = verdict(edition, granule, &plan, &parts, &tasks, place);
            let mut list = vec![77; numbers];
            let found = page(edition, granule, &plan, &parts, &tasks, place, &mut list);
            let input = (edition, granule, &plan, &parts, &tasks, place, numbers);
            let rows = found.second as usize;
            match (wanted.number, wanted.first) {
                (0, 0) if found.number == 12 => {
                    assert_eq!(found, Answer::refused(12), "{input:?}");
                    assert_eq!(list, vec![77; numbers], "{input:?}");
                    short += 1;
                }
                (0, 0) => {
                    assert_eq!((found.number, found.first), (0, 0), "{input:?}");
                    assert!(rows > 0 && ROW * rows <= numbers, "{input:?}");
                    assert_eq!(list[ROW * rows..], vec![77; numbers - ROW * rows]);
                    failed += 1;
                }
                (number, _) => {
                    assert_eq!((found, list), (wanted, vec![77; numbers]), "{input:?}");
                    passed += u64::from(number == 0);
                    refused += u64::from(number != 0);
                }
            }
        }
        let seen = [passed, failed, short, refused];
        assert!(seen.iter().all(|times| *times > 50), "{seen:?}");
    }
}
