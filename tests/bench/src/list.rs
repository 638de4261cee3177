//! The listing: of sixteen partitions and 128 tasks in the longest frame, of one partition's tasks that
//! try every tick of it, by one engine or by both, and of the largest file. The lines that end in
//! `walk` have the walk for each point and each tick in the second program's place, as the library
//! listed before it had the curve. Of edition 2 there are only the others.

use second::editions::Edition;
use second::inputs::files::Tables;
use second::inputs::plans;
use second::listing;
use second::rng::Rng;
use second::{ticks, Answer};

use crate::anew;
use crate::apart;
use crate::files::{Shape, FAILING, LATE};
use crate::library;
use crate::rule::named;
use crate::steps;
use crate::timing::line;
use crate::walk;

/// Tasks with few points, and deadlines far below the frame.
fn short_deadlines(edition: Edition) -> Vec<u8> {
    let served = plans::of_sixteen(&mut Rng::new(1), edition);
    let period = |place: u16| 256 + place;
    let task = |place: u16| [1 + place % 16, 2, period(place), period(place)];
    let tables = Tables {
        edition: edition.number(),
        frame: 4096,
        runs: ticks::to_runs(&served.plan),
        tasks: (0..128).flat_map(task).collect(),
        parts: served.parts,
    };
    tables.bytes()
}

/// A file of 1,050 bytes: one partition has the whole frame.
fn all_own(edition: u64, first: [u16; 4], second: [u16; 4]) -> Vec<u8> {
    let others = [1, 1, 4096, 4096].repeat(126);
    let tables = Tables {
        edition,
        frame: 4096,
        parts: vec![1, 1, 1],
        tasks: [&first[..], &second[..], &others[..]].concat(),
        runs: vec![1, 4096],
    };
    tables.bytes()
}

/// Every task but the first tries every tick of the frame, each a point, and fails.
fn every_tick(edition: u64) -> Vec<u8> {
    all_own(edition, [1, 1, 1, 1], [1, 1, 4096, 4096])
}

/// Every task passes, but for the first not before tick 3,800: so far the plain engine tries every
/// tick, the other every second.
fn late(edition: u64) -> Vec<u8> {
    all_own(edition, [1, 1, 2, 2], [1, 1900, 4096, 4096])
}

/// The library's listing.
pub fn listed(file: &[u8]) -> Result<String, Answer> {
    let mut text = vec![0; 8192];
    let answer = library::list(file, &mut text);
    text.truncate(answer.first as usize);
    String::from_utf8(text).map_err(|_| answer)
}

fn lines<const EDITION: u64>(name: &str, file: &[u8]) {
    let library = || listed(file);
    let name = format!("list {name}{}", named::<EDITION>());
    line(&name, library, || Ok(listing::text(file)));
    line(&format!("{name}, same"), library, || {
        steps::list::<EDITION>(file)
    });
    if EDITION == 1 {
        line(&format!("{name}, walk"), library, || {
            apart::list(file, walk::least::<1>)
        });
    }
}

/// The largest file. So many of its tasks pass, and no partition's ticks repeat within the frame.
fn largest<const EDITION: u64>(name: &str, shape: Shape, passing: usize) {
    let plan = shape.plan();
    let repeats = |p: u16| steps::repeated(&plan, p) < plan.len();
    assert!(!(1..=16).any(repeats), "{name}");
    let file = shape.bytes::<EDITION>();
    let text = listed(&file).unwrap_or_default();
    assert_eq!(text.lines().count(), 1 + 16 + shape.tasks, "{name}");
    assert_eq!(text.matches("pass").count(), passing, "{name}");
    lines::<EDITION>(name, &file);
    if EDITION == 1 {
        anew::lines(name, shape);
    }
}

/// Runs of one tick serve nobody in edition 2, and runs of two half as long: nothing is late there.
pub fn run() {
    let name = "16, 128, 4096";
    lines::<1>(name, &short_deadlines(Edition::One));
    lines::<2>(name, &short_deadlines(Edition::Two));
    lines::<1>("every tick", &every_tick(1));
    lines::<2>("every tick", &every_tick(2));
    lines::<1>("late", &late(1));
    lines::<2>("late", &late(2));
    let of_runs = |runs: usize, shape: Shape| Shape { runs, ..shape };
    largest::<1>("largest, 16 runs", of_runs(16, FAILING), 0);
    largest::<2>("largest, 16 runs", of_runs(16, FAILING), 0);
    largest::<1>("largest, 2048 runs", FAILING, 0);
    largest::<2>("largest, 2048 runs", FAILING, 0);
    largest::<1>("largest, 4096 runs", of_runs(4096, FAILING), 0);
    largest::<1>("largest, 16 runs, late", of_runs(16, LATE), 112);
    largest::<2>("largest, 16 runs, late", of_runs(16, LATE), 112);
    largest::<1>("largest, 2048 runs, late", LATE, 112);
}
