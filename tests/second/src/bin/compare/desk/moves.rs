//! How far a job taken in moves the later ones: never farther than their x (`promise`), and here just
//! so far.

use second::desk::Job;
use second::inputs::jobs;
use second::inputs::requests::{self, Request};
use second::limits::JOBS;
use second::Answer;

use super::{sequence, Lent};
use crate::seen::Seen;
use crate::trial::Trial;

const ALL: &str = "a move of all x";
const TWO: &str = "two moves of all x";
const MANY: &str = "many moves of all x";
const THEN_LESS: &str = "a move of all x, then one of less";
const TEN: &str = "a move of all x, ten ticks or more";
const FAR: &str = "a far move of all x";
const FULL: &str = "a move of all x in a table that is full then";
const SHORT: &str = "a move of all x but a tick";
const BESIDE: &str = "up to a job that can't move";
const PAST: &str = "past a room that lacks a tick";

/// Notes how far a request that was taken moved the later jobs.
pub fn note(seen: &mut Seen, [before, after]: [&Lent; 2], asked: Request, answer: Answer) {
    if answer.number != 0 {
        return;
    }
    let place = answer.first as usize;
    let left = asked.left(before.listed());
    let later = left[place..].iter().zip(&after.listed()[place + 1..]);
    let moves: Vec<[u32; 2]> = later
        .map(|(was, now)| [now.a - was.a, was.x])
        .take_while(|[far, _]| *far > 0)
        .collect();
    let all = moves.iter().filter(|[far, x]| far == x).count();
    let farthest = moves.first().map_or(0, |[far, _]| *far);
    let end = asked.earliest(left, place) + asked.c;
    let beside = |job: &Job| job.x == 0 && job.a == end;
    let lower = &asked.rooms(left)[..place];
    for (is, kind) in [
        (all > 0, ALL),
        (all > 1, TWO),
        (all > 9, MANY),
        (all > 0 && all < moves.len(), THEN_LESS),
        (all > 0 && farthest > 9, TEN),
        (all > 0 && farthest > 500_000, FAR),
        (all > 0 && after.listed().len() == JOBS, FULL),
        (moves.iter().any(|[far, x]| far + 1 == *x), SHORT),
        (left.get(place).is_some_and(beside), BESIDE),
        (lower.contains(&(i64::from(asked.c) - 1)), PAST),
    ] {
        if is {
            seen.count(kind.to_string());
        }
    }
}

/// Six requests a case, each as long as the room of a place, or a tick shorter or longer.
pub fn of_all_x(trial: &mut Trial) {
    let mut seen = Seen::default();
    for _ in trial.cases(15_000) {
        let count = trial.rng.pick(&[1, 2, 3, 5, 12, 40, 62, 63]);
        let lent = Lent::new(jobs::any(&mut trial.rng, count));
        sequence(trial, lent, 6, requests::about_a_room, &mut seen);
    }
    seen.share(trial, &["answered 0", "answered 18"], [2, 1]);
    seen.share(trial, &[ALL, PAST], [1, 2]);
    seen.share(trial, &[TWO, THEN_LESS, SHORT, BESIDE], [1, 6]);
    seen.share(trial, &[TEN], [1, 10]);
    seen.share(trial, &[MANY, FULL], [1, 25]);
    seen.share(trial, &[FAR], [1, 100]);
}
