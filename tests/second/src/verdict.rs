//! "Verdicts", and ask 4's plain engine.

use std::collections::BTreeSet;

use crate::answer::Answer;
use crate::editions::Edition;
use crate::plan;
use crate::records::{self, Task};
use crate::service::Service;

/// The verdict for the task at a place from 1: 2, 3, 21, 6, 7, 7 with place 0, 8, 9.
pub fn verdict(
    edition: u64,
    granule: u64,
    plan: &[u16],
    parts: &[u16],
    tasks: &[u16],
    place: usize,
) -> Answer {
    let judged = by_the_rules(edition, granule, plan, parts, tasks, place);
    told(judged, place, passing_point)
}

/// "a verdict he can follow with a pencil: every tick t from 1 to D, no scheduling points", with
/// the verdict's refusals.
pub fn plain(
    edition: u64,
    granule: u64,
    plan: &[u16],
    parts: &[u16],
    tasks: &[u16],
    place: usize,
) -> Answer {
    let judged = by_the_rules(edition, granule, plan, parts, tasks, place);
    told(judged, place, passing_tick)
}

/// The service of a plan that serves its table, and good tasks.
pub(crate) type Judged = Result<(Service, Vec<Task>), Answer>;

/// What tells from these and a place of the tasks' table where the task passes; a fail is 0.
type Engine = fn(&Service, &[Task], usize) -> u64;

fn told(judged: Judged, place: usize, passing: Engine) -> Answer {
    match judged {
        Ok((service, tasks)) => Answer::good([passing(&service, &tasks, place), 0, 0, 0]),
        Err(refusal) => refusal,
    }
}

/// What a task can be judged by at the place.
pub(crate) fn by_the_rules(
    edition: u64,
    granule: u64,
    plan: &[u16],
    parts: &[u16],
    tasks: &[u16],
    place: usize,
) -> Judged {
    let edition = Edition::of(edition)?;
    let partitions = records::partitions(parts)?;
    let tasks = records::tasks(tasks)?;
    records::frame(plan.len() as u64)?;
    records::granule(granule)?;
    records::partition_rules(&partitions, plan.len())?;
    records::task_rules(&tasks, partitions.len())?;
    if place == 0 || place > tasks.len() {
        // "a place outside the table is 7 with place 0, after the other 7s"
        return Err(Answer::refused_at(7, 0));
    }
    records::tick_rules(plan, partitions.len())?;
    let service = Service::new(edition, plan);
    plan::serves(&service, granule, &partitions)?;
    Ok((service, tasks))
}

/// "A pass reports the smallest scheduling point that holds". Both readings are followed, and have
/// to agree.
pub(crate) fn passing_point(service: &Service, tasks: &[Task], place: usize) -> u64 {
    let holds = holding(service, tasks, place);
    // "passes exactly when demand(t) ≤ least(t) for some t from 1 to D"
    let passes = (1..=tasks[place - 1].d).any(|t| holds(&t));
    let point = scheduling_points(tasks, place).into_iter().find(holds);
    assert_eq!(passes, point.is_some(), "the two readings of a pass differ");
    point.unwrap_or(0)
}

/// "It reports the smallest tick that holds, which may be below the scheduling point".
pub(crate) fn passing_tick(service: &Service, tasks: &[Task], place: usize) -> u64 {
    let holds = holding(service, tasks, place);
    (1..=tasks[place - 1].d).find(holds).unwrap_or(0)
}

/// Whether "demand(t) ≤ least(t)", for a t up to D.
fn holding<'a>(service: &Service, tasks: &'a [Task], place: usize) -> impl Fn(&u64) -> bool + 'a {
    let task = &tasks[place - 1];
    let least = service.least_up_to(task.partition, task.d as usize);
    move |t| demand(tasks, place, *t) <= least[*t as usize]
}

/// "Within a partition an earlier task has the higher priority."
fn higher(tasks: &[Task], place: usize) -> impl Iterator<Item = &Task> {
    let partition = tasks[place - 1].partition;
    let earlier = tasks[..place - 1].iter();
    earlier.filter(move |task| task.partition == partition)
}

/// "C of i plus, for each higher task j of the same partition, C of j times t/T of j rounded up".
pub(crate) fn demand(tasks: &[Task], place: usize, t: u64) -> u64 {
    let above: u64 = higher(tasks, place)
        .map(|task| task.c * t.div_ceil(task.t))
        .sum();
    tasks[place - 1].c + above
}

/// "the multiples, from one period up to D, of the higher tasks' periods, and D itself, each once".
pub(crate) fn scheduling_points(tasks: &[Task], place: usize) -> BTreeSet<u64> {
    let deadline = tasks[place - 1].d;
    let mut points = BTreeSet::from([deadline]);
    for task in higher(tasks, place) {
        let mut point = task.t;
        while point <= deadline {
            points.insert(point);
            point += task.t;
        }
    }
    points
}

#[cfg(test)]
mod tests {
    use super::{passing_point, passing_tick};
    use crate::editions::Edition;
    use crate::inputs::{plans, tables};
    use crate::records::{self, Task};
    use crate::rng::Rng;
    use crate::service::Service;

    /// With a pencil: each task as often as it is released before t, each stretch counted anew.
    fn by_pencil(service: &Service, tasks: &[Task], place: usize) -> u64 {
        let asked = tasks[place - 1];
        for t in 1..=asked.d {
            let mut demand = asked.c;
            for task in &tasks[..place - 1] {
                let releases = (0..t).filter(|tick| tick % task.t == 0).count() as u64;
                if task.partition == asked.partition {
                    demand += task.c * releases;
                }
            }
            if demand <= service.least(asked.partition, t as u32) {
                return t;
            }
        }
        0
    }

    #[test]
    fn the_tick_is_the_one_by_pencil() {
        let mut rng = Rng::new(9);
        let [mut below, mut fail] = [0, 0];
        for _ in 0..2500 {
            let frame = rng.between(1, 9);
            let plan = plans::in_runs(&mut rng, frame, 2);
            let service = Service::new(rng.pick(&Edition::BOTH), &plan);
            let numbers = tables::tasks(&mut rng, 4, 2, 30);
            let tasks = records::tasks(&numbers).unwrap_or_default();
            for place in 1..=tasks.len() {
                let wanted = by_pencil(&service, &tasks, place);
                let tick = passing_tick(&service, &tasks, place);
                assert_eq!(tick, wanted, "{service:?} {tasks:?} {place}");
                let point = passing_point(&service, &tasks, place);
                let alike = tick <= point && (tick > 0) == (point > 0);
                assert!(alike, "{service:?} {tasks:?} {place}: {point} {tick}");
                below += u64::from(tick < point);
                fail += u64::from(tick == 0);
            }
        }
        assert!(below > 1000 && fail > 1000, "{below} {fail}");
    }
}
