//! Timing of one entry.

use std::fmt::Debug;
use std::hint::black_box;
use std::time::{Duration, Instant};

const ROUNDS: usize = 5;
const ROUND: Duration = Duration::from_millis(60);

/// In nanoseconds: what takes longer is called once.
const SLOW: f64 = 3e8;

/// Prints the entry's line, after seeing that both programs answer the same.
pub fn line<O: PartialEq + Debug>(
    name: &str,
    library: impl FnMut() -> O,
    second: impl FnMut() -> O,
) {
    print(name, beside(name, library, second));
}

/// A name, two times, and how many times the second the first is.
pub fn print(name: &str, [first, second]: [f64; 2]) {
    let ratio = match first / second {
        ratio @ 0.1.. => format!("{ratio:.2}"),
        ratio @ 0.001.. => format!("{ratio:.4}"),
        ratio => format!("{ratio:.1e}"),
    };
    println!("{name:<60}  {first:>14.0}  {second:>16.0}  {ratio:>8}");
}

/// Nanoseconds a call of both programs, which have to answer the same. They take turns, so that both
/// meet what else the machine does; of each the quickest round counts.
pub fn beside<O: PartialEq + Debug>(
    name: &str,
    mut library: impl FnMut() -> O,
    mut second: impl FnMut() -> O,
) -> [f64; 2] {
    let (ours, library_once) = once(&mut library);
    let (theirs, second_once) = once(&mut second);
    assert_eq!(ours, theirs, "{name}");
    let mut times = [library_once, second_once];
    for _ in 0..ROUNDS {
        times = [
            quicker(times[0], &mut library),
            quicker(times[1], &mut second),
        ];
    }
    times
}

/// The quickest of some calls.
pub fn quickest<O>(mut call: impl FnMut() -> O) -> f64 {
    let times = [(); 3].map(|()| once(&mut call).1);
    times.into_iter().fold(f64::INFINITY, f64::min)
}

/// One call's answer, and the nanoseconds that it took.
fn once<O>(call: impl FnOnce() -> O) -> (O, f64) {
    let begun = Instant::now();
    let answer = black_box(call());
    (answer, begun.elapsed().as_nanos() as f64)
}

fn quicker<O>(known: f64, call: impl FnMut() -> O) -> f64 {
    if known > SLOW {
        return known;
    }
    known.min(nanoseconds(call))
}

/// Nanoseconds a call, over as many calls as make a round.
fn nanoseconds<O>(mut call: impl FnMut() -> O) -> f64 {
    let mut calls = 0;
    let begun = Instant::now();
    while begun.elapsed() < ROUND {
        black_box(call());
        calls += 1;
    }
    begun.elapsed().as_nanos() as f64 / f64::from(calls)
}
