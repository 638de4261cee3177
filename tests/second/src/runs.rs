//! "A legal run", played out at random, "jobs running in service ticks only" (ask 6 of document 02).

use std::collections::VecDeque;

use crate::records::Task;
use crate::rng::Rng;
use crate::service::Service;

struct Job {
    release: u64,
    needs: u64,
}

/// A task of the run with its waiting jobs, the oldest in front.
struct Releases {
    task: Task,
    next: u64,
    waiting: VecDeque<Job>,
    /// As often and as long as the task may, or at random.
    greedy: bool,
}

/// Whether a job of the task at `place` ever missed in one run of so many ticks. "nothing is
/// waiting at the start, at any tick of the repeated plan".
pub fn misses(service: &Service, tasks: &[Task], place: usize, ticks: u64, rng: &mut Rng) -> bool {
    if service.frame() == 0 || place == 0 || place > tasks.len() {
        return false;
    }
    let task = tasks[place - 1];
    let start = rng.between(0, service.frame() - 1);
    let mut all = begin(tasks, rng);
    for now in 0..ticks {
        for one in &mut all {
            release(one, now, rng);
        }
        if service.at(start + now as usize) == task.partition {
            run_highest(&mut all, task.partition);
        }
        // "Done within D means finished after at most D ticks from release."
        let oldest = all[place - 1].waiting.front();
        if oldest.is_some_and(|job| now + 1 - job.release >= task.d) {
            return true;
        }
    }
    false
}

fn begin(tasks: &[Task], rng: &mut Rng) -> Vec<Releases> {
    let together = rng.one_in(2);
    let greedy = rng.one_in(2);
    let mut all = Vec::new();
    for &task in tasks {
        let first = rng.between(0, task.t as usize) as u64;
        all.push(Releases {
            task,
            next: if together { 0 } else { first },
            waiting: VecDeque::new(),
            greedy: greedy || rng.one_in(2),
        });
    }
    all
}

/// "jobs of a task are released at least T apart and need 1 to C ticks".
fn release(one: &mut Releases, now: u64, rng: &mut Rng) {
    if now != one.next {
        return;
    }
    let c = one.task.c.max(1) as usize;
    let needs = if one.greedy { c } else { rng.between(1, c) };
    let later = if one.greedy || rng.one_in(2) {
        0
    } else {
        rng.between(0, 5)
    };
    one.waiting.push_back(Job {
        release: now,
        needs: needs as u64,
    });
    one.next = now + one.task.t + later as u64;
}

/// "in each own tick the waiting job of the highest priority runs, the older of one task first".
fn run_highest(all: &mut [Releases], partition: u16) {
    for one in all.iter_mut() {
        if one.task.partition != partition {
            continue;
        }
        if let Some(job) = one.waiting.front_mut() {
            job.needs -= 1;
            if job.needs == 0 {
                one.waiting.pop_front();
            }
            return;
        }
    }
}

#[cfg(test)]
mod tests {
    use super::misses;
    use crate::editions::Edition;
    use crate::records::Task;
    use crate::rng::Rng;
    use crate::service::Service;

    const P1: [u16; 8] = [1, 2, 2, 2, 1, 3, 0, 0];

    fn tasks(second_deadline: u64) -> [Task; 2] {
        let task = |d, t| Task {
            partition: 2,
            c: 2,
            d,
            t,
        };
        [task(8, 16), task(second_deadline, 32)]
    }

    fn missed(edition: Edition, deadline: u64, place: usize) -> bool {
        let mut rng = Rng::new(7);
        let service = Service::new(edition, &P1);
        (0..500).any(|_| misses(&service, &tasks(deadline), place, 200, &mut rng))
    }

    #[test]
    fn a_run_shows_what_fails() {
        let missed = |deadline, place| missed(Edition::One, deadline, place);
        assert!(missed(13, 2));
        assert!(!missed(14, 2));
        assert!(!missed(13, 1));
    }

    /// Partition 2 has two service ticks in a frame: four in any 16, and three in some 15.
    #[test]
    fn a_run_in_service_ticks_only() {
        let missed = |deadline, place| missed(Edition::Two, deadline, place);
        assert!(missed(15, 2));
        assert!(!missed(16, 2));
        assert!(!missed(15, 1));
    }
}
