//! The verdict, by both engines: a failing task of deadline 4,096, so that every scheduling point, and
//! by the plain engine every tick, is tried; of the one named `all` every tick is a point. Where runs
//! are named, the partition has so many that don't repeat; with 2047 they are of one tick, which in
//! edition 2 serve nobody. The lines that end in `points` have the library's other engine in the second
//! program's place.

use second::verdict;

use crate::curve::scattered;
use crate::library::{self, GRANULE};
use crate::rule::named;
use crate::steps;
use crate::timing::line;

fn lines<const EDITION: u64>(name: &str, plan: &[u16], parts: &[u16], tasks: &[u16]) {
    let name = format!("{name}{}", named::<EDITION>());
    let library = || library::verdict(EDITION, plan, parts, tasks, 4);
    assert_eq!(library().number, 0, "{name}");
    line(&format!("verdict {name}"), library, || {
        verdict::verdict(EDITION, GRANULE, plan, parts, tasks, 4)
    });
    line(&format!("verdict {name}, same"), library, || {
        steps::verdict::<EDITION>(plan, parts, tasks, 4)
    });
    let plain = || library::plain(EDITION, plan, parts, tasks, 4);
    line(&format!("plain {name}"), plain, || {
        verdict::plain(EDITION, GRANULE, plan, parts, tasks, 4)
    });
    line(&format!("plain {name}, same"), plain, || {
        steps::plain::<EDITION>(plan, parts, tasks, 4)
    });
    line(&format!("plain {name}, points"), plain, library);
}

pub fn run() {
    let often = [
        1, 8, 60, 64, 1, 10, 90, 96, 1, 12, 100, 150, 1, 4000, 4096, 4096,
    ];
    let seldom = [
        1, 80, 500, 500, 1, 90, 700, 700, 1, 99, 900, 900, 1, 4000, 4096, 4096,
    ];
    let always = [
        1, 1, 1, 1, 1, 90, 700, 700, 1, 99, 900, 900, 1, 4000, 4096, 4096,
    ];
    let often_own = |ticks: usize| [1, 1, 0, 1].repeat(ticks / 4);
    let cases = [
        ("F 16", often_own(16), [4, 2, 4], &often),
        ("F 256", often_own(256), [4, 2, 4], &often),
        ("F 4096", often_own(4096), [4, 2, 4], &seldom),
        ("F 4096, all", often_own(4096), [4, 2, 4], &always),
        (
            "F 4096, runs 128",
            scattered(4096, 128),
            [4096, 1, 4],
            &seldom,
        ),
        (
            "F 4096, runs 1023",
            scattered(4096, 1023),
            [4096, 1, 8],
            &seldom,
        ),
    ];
    for (name, plan, parts, tasks) in cases {
        lines::<1>(name, &plan, &parts, tasks);
        lines::<2>(name, &plan, &parts, tasks);
    }
    let one_tick_each = scattered(4096, 2047);
    lines::<1>("F 4096, runs 2047", &one_tick_each, &[4096, 1, 4], &seldom);
}
