//! The desk's worked examples, with D6 as ask 1 of document 02 has it, the ends of the gap that it is
//! about, and moves of all x. What 18 says of the room is told in `explained`.

use crate::answer::Answer;
use crate::desk::{open, request, Desk, Job};
use crate::limits::JOBS;

pub fn d1() -> (Desk, [Job; JOBS]) {
    let mut desk = Desk { clock: 9, count: 3 };
    let mut jobs = [Job::default(); JOBS];
    for (job, [a, c, d]) in jobs.iter_mut().zip([[10, 3, 20], [15, 5, 24], [30, 2, 40]]) {
        *job = Job { a, c, d, x: 7 };
    }
    assert_eq!(open(&mut desk, &mut jobs), Answer::good([0; 4]));
    (desk, jobs)
}

/// The starts and flexibilities of the listed jobs.
fn shape(desk: &Desk, jobs: &[Job]) -> (Vec<u32>, Vec<u32>) {
    let listed = &jobs[..desk.count as usize];
    let starts = listed.iter().map(|job| job.a).collect();
    (starts, listed.iter().map(|job| job.x).collect())
}

fn from_d1(t: u32, c: u32, d: u32) -> (Answer, Desk, [Job; JOBS]) {
    let (mut desk, mut jobs) = d1();
    let answer = request(&mut desk, &mut jobs, t, c, d);
    (answer, desk, jobs)
}

#[test]
fn d1_d2() {
    let (desk, jobs) = d1();
    assert_eq!(desk, Desk { clock: 0, count: 3 });
    assert_eq!(shape(&desk, &jobs), (vec![10, 15, 30], vec![6, 4, 8]));
    let (answer, desk, jobs) = from_d1(8, 6, 16);
    assert_eq!(answer, Answer::good([0, 8, 0, 0]));
    assert_eq!(desk, Desk { clock: 8, count: 4 });
    assert_eq!(shape(&desk, &jobs), (vec![8, 14, 17, 30], vec![2, 2, 2, 8]));
}

#[test]
fn d3_d4() {
    let (answer, ..) = from_d1(8, 8, 40);
    assert_eq!(answer, Answer::good([0, 8, 0, 0]));
    let (answer, desk, jobs) = from_d1(8, 9, 40);
    assert_eq!(answer, Answer::good([2, 20, 0, 0]));
    assert_eq!((desk.count, jobs[2].a, jobs[2].x), (4, 20, 9));
}

#[test]
fn d5() {
    let (answer, desk, jobs) = from_d1(12, 1, 40);
    assert_eq!(answer, Answer::refused(16));
    assert_eq!(
        desk,
        Desk {
            clock: 12,
            count: 3
        }
    );
    assert_eq!(jobs, d1().1);
}

/// A table with these jobs alone: start, budget, deadline and flexibility.
fn only(listed: &[[u32; 4]]) -> [Job; JOBS] {
    let mut jobs = [Job::default(); JOBS];
    for (job, &[a, c, d, x]) in jobs.iter_mut().zip(listed) {
        *job = Job { a, c, d, x };
    }
    jobs
}

/// "ticks 25 to 29 are free, the job needs four [...] D6 starts at 25."
#[test]
fn d6() {
    let (answer, desk, jobs) = from_d1(25, 4, 29);
    assert_eq!(answer, Answer::good([0, 25, 0, 0]));
    assert_eq!(
        desk,
        Desk {
            clock: 25,
            count: 2
        }
    );
    assert_eq!(jobs, only(&[[25, 4, 29, 0], [30, 2, 40, 8]]));
}

/// One tick more than D6 needs breaks its deadline: 18, which drops and sets the clock. The room
/// before all jobs is from 25 to 29.
#[test]
fn d6_a_tick_longer() {
    let (answer, desk, jobs) = from_d1(25, 5, 29);
    assert_eq!(answer, Answer::new(18, [0, 4, 1, 0]));
    assert_eq!(
        desk,
        Desk {
            clock: 25,
            count: 1
        }
    );
    assert_eq!(jobs, only(&[[30, 2, 40, 8]]));
}

/// "a place with enough room never leads to a move beyond a job's flexibility": nine ticks from 8 on
/// move two jobs by all of their x, which is up to their deadlines, and none behind those.
#[test]
fn moves_of_all_x() {
    let listed = [[10, 3, 20, 7], [15, 4, 24, 5], [40, 2, 50, 8]];
    let asked = |c: u32, d: u32| {
        let (mut desk, mut jobs) = (Desk { clock: 8, count: 3 }, only(&listed));
        (request(&mut desk, &mut jobs, 8, c, d), jobs)
    };
    for d in [17, 18, 28, 29, 60] {
        let moved = only(&[[8, 9, d, 0], [17, 3, 20, 0], [20, 4, 24, 0], listed[2]]);
        assert_eq!(asked(9, d), (Answer::good([0, 8, 0, 0]), moved));
    }
    // A tick more goes to a later place, and is 18 while d is before its end there.
    let refused = |bound: [u64; 2]| Answer::new(18, [0, 9, bound[0], bound[1]]);
    for (d, bound) in [(17, [1, 0]), (18, [2, 0]), (28, [2, 0])] {
        assert_eq!(asked(10, d), (refused(bound), only(&listed)));
    }
    let unmoved = only(&[[10, 3, 20, 2], [15, 4, 24, 0], [19, 10, 29, 0], listed[2]]);
    assert_eq!(asked(10, 29), (Answer::good([2, 19, 0, 0]), unmoved));
}

/// What a request finds behind all listed jobs: D1's last one ends at 32, and no place before has
/// room for so many ticks.
#[test]
fn behind_all_jobs() {
    let (answer, desk, jobs) = from_d1(8, 19, 51);
    assert_eq!(answer, Answer::good([3, 32, 0, 0]));
    assert_eq!((desk.clock, desk.count), (8, 4));
    assert_eq!(jobs[3], only(&[[32, 19, 51, 0]])[0]);
    let (answer, _, jobs) = from_d1(8, 19, 60);
    assert_eq!(answer, Answer::good([3, 32, 0, 0]));
    assert_eq!(jobs[3], only(&[[32, 19, 60, 9]])[0]);
    let (answer, desk, jobs) = from_d1(8, 20, 51);
    assert_eq!(answer, Answer::new(18, [3, 19, 1, 0]));
    assert_eq!((desk.clock, desk.count, jobs), (8, 3, d1().1));
}

/// "also when the table is empty": all that counts is t + C ≤ d.
#[test]
fn an_empty_table() {
    let asked = |t: u32, c: u32, d: u32| {
        let (mut desk, mut jobs) = (Desk::default(), only(&[]));
        let answer = request(&mut desk, &mut jobs, t, c, d);
        assert_eq!(desk.clock, t);
        (answer, desk.count, jobs)
    };
    for (t, c, d) in [(0, 1, 1), (7, 5, 12), (7, 5, 20), (0, 1_000_000, 1_000_000)] {
        let taken = Answer::good([0, u64::from(t), 0, 0]);
        assert_eq!(asked(t, c, d), (taken, 1, only(&[[t, c, d, d - t - c]])));
    }
    let refused = |room| (Answer::new(18, [0, room, 1, 0]), 0, only(&[]));
    assert_eq!(asked(0, 2, 1), refused(1));
    assert_eq!(asked(7, 6, 12), refused(5));
    assert_eq!(asked(1, 1_000_000, 1_000_000), refused(999_999));
    assert_eq!(asked(1_000_000, 1, 1_000_000), refused(0));
    // Past d there is no place at all.
    assert_eq!(asked(7, 1, 6), (Answer::refused(18), 0, only(&[])));
}
