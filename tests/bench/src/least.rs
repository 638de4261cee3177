//! Least service in the longest frame, of stretches shorter than it, as long, and longer.

use second::rng::Rng;
use second::{inputs::plans, plan, Answer};

use crate::library;
use crate::rule::named;
use crate::timing::line;
use crate::walk;

fn lines<const EDITION: u64>(ticks: &[u16]) {
    for t in [64, 4096, 100_000] {
        let name = format!("least F 4096, t {t}{}", named::<EDITION>());
        let library = || library::least(EDITION, ticks, 1, t);
        line(&name, library, || plan::least(EDITION, ticks, 1, t));
        line(&format!("{name}, same"), library, || {
            Answer::good([walk::least::<EDITION>(ticks, 1, t as usize), 0, 0, 0])
        });
    }
}

pub fn run() {
    let ticks = plans::scattered(&mut Rng::new(1), 4096, 16);
    lines::<1>(&ticks);
    lines::<2>(&ticks);
}
