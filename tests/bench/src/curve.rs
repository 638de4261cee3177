//! The curve of least service, up to the frame's length but where n is named. In the longest frame it stands beside the
//! same method and, where the name ends in `least`, beside the library's least service once for each
//! t; in shorter ones, where that can be waited for, beside the second program's once for each t.

use second::rng::Rng;
use second::{plan, Answer};

use crate::library;
use crate::rule::named;
use crate::steps;
use crate::timing::line;

/// So many runs of partition 1 with as many gaps, their lengths by lot. With half as many runs as
/// ticks there would be no choice left: the plan would repeat every second tick.
pub fn scattered(frame: usize, runs: usize) -> Vec<u16> {
    let mut rng = Rng::new(1);
    let mut lengths = vec![1; 2 * runs];
    for _ in 2 * runs..frame {
        lengths[rng.between(0, 2 * runs - 1)] += 1;
    }
    let owners = [1, 0].into_iter().cycle();
    let ticks = owners.zip(lengths);
    let plan: Vec<u16> = ticks
        .flat_map(|(owner, length)| vec![owner; length])
        .collect();
    assert_eq!(steps::repeated(&plan, 1), frame);
    plan
}

/// Fills the list in by one least service for each t.
fn each(list: &mut [u32], least: impl Fn(u32) -> Answer) -> Answer {
    for (smallest, t) in list.iter_mut().zip(0..) {
        *smallest = least(t).first as u32;
    }
    Answer::good([list.len() as u64, 0, 0, 0])
}

/// The library's curve beside another way to it.
fn beside(
    edition: u64,
    name: &str,
    ticks: &[u16],
    n: usize,
    mut other: impl FnMut(&mut [u32]) -> Answer,
) {
    let [mut ours, mut theirs] = [vec![0; n + 1], vec![0; n + 1]];
    line(
        name,
        || library::curve(edition, ticks, 1, n as u32, &mut ours),
        || other(&mut theirs),
    );
    assert_eq!(ours, theirs, "{name}");
}

fn same<const EDITION: u64>(name: &str, ticks: &[u16], n: usize) {
    let name = format!("curve {name}{}, same", named::<EDITION>());
    beside(EDITION, &name, ticks, n, |to| {
        steps::curve::<EDITION>(ticks, 1, to)
    });
}

fn lines(name: &str, ticks: &[u16], n: usize) {
    same::<1>(name, ticks, n);
    same::<2>(name, ticks, n);
    beside(1, &format!("curve {name}, least"), ticks, n, |to| {
        each(to, |t| library::least(1, ticks, 1, t))
    });
}

pub fn run() {
    for frame in [64, 256, 1024] {
        let ticks = scattered(frame, frame / 32);
        let name = format!("curve F {frame}, runs {}", frame / 32);
        beside(1, &name, &ticks, frame, |to| {
            each(to, |t| plan::least(1, &ticks, 1, t))
        });
    }
    for runs in [1, 128, 2047] {
        lines(
            &format!("F 4096, runs {runs}"),
            &scattered(4096, runs),
            4096,
        );
    }
    lines("F 4096, m 4", &[1, 1, 0, 1].repeat(1024), 4096);
    // Each divisor of the frame is found wrong at the last tick only, if one is tried at all.
    let mut all_but_one = vec![1; 3960];
    all_but_one[3959] = 0;
    for n in [1, 62, 63] {
        lines(&format!("F 3960, n {n}"), &all_but_one, n);
    }
}
