//! What the desk says with its 18, reckoned by hand.

use super::desk::d1;
use crate::answer::Answer;
use crate::desk::{open, request, Desk, Job};
use crate::limits::JOBS;

/// The request's own deadline binds: no job is named.
const OWN: [u64; 2] = [1, 0];

/// A listed job's does.
fn job(place: u64) -> [u64; 2] {
    [2, place]
}

/// A table of start, budget and deadline, opened.
fn opened(listed: &[[u32; 3]]) -> (Desk, [Job; JOBS]) {
    let count = listed.len() as u32;
    let (mut desk, mut jobs) = (Desk { clock: 0, count }, [Job::default(); JOBS]);
    for (job, &[a, c, d]) in jobs.iter_mut().zip(listed) {
        *job = Job { a, c, d, x: 0 };
    }
    assert_eq!(open(&mut desk, &mut jobs), Answer::good([0; 4]));
    (desk, jobs)
}

/// So many ticks as the room has are taken at that place, if they are some; one more is 18, with
/// these words, and so are far more.
fn room_of((desk, jobs): (Desk, [Job; JOBS]), [t, d]: [u32; 2], wanted: [u64; 2], bound: [u64; 2]) {
    let asked = |c: u32| {
        let (mut desk, mut jobs) = (desk, jobs);
        request(&mut desk, &mut jobs, t, c, d)
    };
    let [place, room] = wanted;
    let refused = Answer::new(18, [place, room, bound[0], bound[1]]);
    for more in [1, 2, 500_000] {
        assert_eq!(asked(room as u32 + more), refused, "{t} {d}");
    }
    if room > 0 {
        let taken = asked(room as u32);
        assert_eq!((taken.number, taken.first), (0, place), "{t} {d}");
    }
}

/// D6 itself is taken since ask 1, and one tick more is not. The job at 30 starts past d, so place l
/// is before it.
#[test]
fn d6() {
    room_of(d1(), [25, 29], [0, 4], OWN);
    room_of(d1(), [25, 26], [0, 1], OWN);
    room_of(d1(), [25, 25], [0, 0], OWN);
}

/// x is 6, 4, 8, and the starts are 10, 15, 30. From t 8 the rooms before the jobs are 8, 6 and 18
/// where d lies far enough; job 2 alone gives 8 ticks behind its start 30, which d 38 does too.
#[test]
fn d1_before_the_last_job() {
    room_of(d1(), [8, 37], [2, 17], OWN);
    room_of(d1(), [8, 38], [2, 18], OWN);
    room_of(d1(), [8, 39], [2, 18], job(2));
    room_of(d1(), [8, 49], [2, 18], job(2));
    // Behind all jobs, from 32 on: as many ticks first at 50, and more at 51.
    room_of(d1(), [8, 50], [2, 18], job(2));
    room_of(d1(), [8, 51], [3, 19], OWN);
}

/// Nine ticks from 8 on end at 17: job 0 goes to 17 and ends by its 20, job 1 goes to 20 and ends at
/// 25, past its 24. So a later job binds. By d 16 the request is late itself.
#[test]
fn d1_a_later_job() {
    room_of(d1(), [8, 15], [0, 7], OWN);
    room_of(d1(), [8, 16], [0, 8], OWN);
    room_of(d1(), [8, 17], [0, 8], job(1));
    // Place 2, which is l, ends by 28 with as many; from 29 on it has more.
    room_of(d1(), [8, 28], [0, 8], job(1));
    room_of(d1(), [8, 29], [2, 9], OWN);
}

/// "Places and jobs count from 0 after dropping": at 13 job 0 has ended.
#[test]
fn d1_after_dropping() {
    room_of(d1(), [13, 40], [1, 18], job(1));
    room_of(d1(), [13, 24], [0, 6], job(0));
    // At 20 job 1 has ended too.
    room_of(d1(), [20, 40], [0, 18], job(0));
    room_of(d1(), [20, 38], [0, 18], OWN);
    // At 32 all have.
    room_of(d1(), [32, 40], [0, 8], OWN);
}

/// "If there is none, as when t is past d, say so". On an empty table, before a job, and behind all.
#[test]
fn none() {
    for (table, t, d) in [
        (opened(&[]), 1, 0),
        (opened(&[]), 1_000_000, 0),
        (d1(), 8, 7),
        (d1(), 25, 24),
        (d1(), 13, 12),
        (d1(), 40, 39),
    ] {
        let (mut desk, mut jobs) = table;
        let answer = request(&mut desk, &mut jobs, t, 1, d);
        assert_eq!(answer, Answer::refused(18));
        assert_eq!(desk.clock, t);
    }
}

/// No tick is left: t is d, with a job that starts there and without one; or a job that can't move
/// stands at t.
#[test]
fn room_0() {
    room_of(opened(&[]), [7, 7], [0, 0], OWN);
    room_of(d1(), [30, 30], [0, 0], OWN);
    room_of(d1(), [9, 9], [0, 0], OWN);
    let tight = opened(&[[0, 5, 5], [5, 5, 10]]);
    // Before both jobs, and behind them; by 8 there is nothing behind them.
    room_of(tight, [0, 8], [0, 0], job(0));
    room_of(tight, [0, 10], [0, 0], job(0));
    room_of(tight, [0, 11], [2, 1], OWN);
    // By 0 the request is late as soon as the job.
    room_of(tight, [0, 0], [0, 0], OWN);
    room_of(tight, [5, 6], [0, 0], job(0));
}

/// The lowest of equal rooms: two ticks before each of three jobs that can't move, and up to two
/// behind them.
#[test]
fn equal_rooms() {
    let tight = opened(&[[2, 2, 4], [6, 2, 8], [10, 2, 12]]);
    for d in [3, 4, 5, 8, 11, 12, 14] {
        room_of(tight, [0, d], [0, 2], job(0));
    }
    room_of(tight, [0, 2], [0, 2], OWN);
    room_of(tight, [0, 15], [3, 3], OWN);
    // From 1 on the first place has a tick less; from 4 on the places are one fewer.
    room_of(tight, [1, 14], [1, 2], job(1));
    room_of(tight, [4, 14], [0, 2], job(0));
}

/// Where one tick more makes two jobs late, the first is named.
#[test]
fn two_jobs_at_once() {
    let both = opened(&[[10, 3, 14], [13, 2, 16]]);
    room_of(both, [10, 15], [0, 1], job(0));
    // A tick later for the first: the second alone is late.
    let second = opened(&[[10, 3, 15], [13, 2, 16]]);
    room_of(second, [10, 15], [0, 1], job(1));
}

/// A gap behind job 0 takes up what moves it: job 1 stands behind it and can't move, job 0 could.
#[test]
fn behind_a_gap() {
    let table = opened(&[[4, 2, 30], [9, 1, 10], [10, 3, 40]]);
    // x is 3, 0, 27: job 0 may go to 7. Then a tick more moves job 1.
    room_of(table, [0, 8], [0, 7], job(1));
    room_of(table, [0, 7], [0, 7], OWN);
    // Before job 1, which is in the gap, there are 3 ticks; behind job 2 none by 13.
    room_of(table, [2, 13], [0, 5], job(1));
    room_of(table, [4, 13], [0, 3], job(1));
}

/// A chain of 63 jobs without gaps: all but the last could move far.
#[test]
fn the_last_of_63() {
    let chain: Vec<[u32; 3]> = (0..63).map(|place| [place, 1, 500]).collect();
    let mut chain: Vec<[u32; 3]> = chain.iter().map(|[a, c, d]| [a + 9, *c, *d]).collect();
    chain[62][2] = 75;
    // It may end three ticks later than at 72.
    room_of(opened(&chain), [9, 74], [0, 3], job(62));
    room_of(opened(&chain), [9, 75], [0, 3], job(62));
    room_of(opened(&chain), [9, 76], [63, 4], OWN);
    room_of(opened(&chain), [9, 12], [0, 3], OWN);
    // At 10 the first has ended.
    room_of(opened(&chain), [10, 74], [0, 3], job(61));
}
