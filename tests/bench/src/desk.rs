//! A request with 63 jobs, all of which move, and one that is refused with 18. The desk is lent anew to each call.

use second::desk::{self, Desk, Job};

use crate::library;
use crate::timing::line;

/// Jobs end to end from tick 10 on, each with ten ticks to spare.
fn end_to_end() -> (Desk, [Job; 64]) {
    let mut desk = Desk {
        clock: 0,
        count: 63,
    };
    let mut jobs = [Job::default(); 64];
    let mut a = 10;
    for job in &mut jobs[..63] {
        *job = Job {
            a,
            c: 5,
            d: a + 15,
            x: 0,
        };
        a += 5;
    }
    desk::open(&mut desk, &mut jobs);
    (desk, jobs)
}

pub fn run() {
    asked("desk 63 jobs move", [0, 15, 20]);
    asked("desk 63 jobs, no place", [0, 300, 400]);
}

fn asked(name: &str, [t, c, d]: [u32; 3]) {
    let opened = end_to_end();
    line(
        name,
        || {
            let (mut desk, mut jobs) = opened;
            let answer = library::request(&mut desk, &mut jobs, t, c, d);
            (answer, desk, jobs)
        },
        || {
            let (mut desk, mut jobs) = opened;
            let answer = desk::request(&mut desk, &mut jobs, t, c, d);
            (answer, desk, jobs)
        },
    );
}
