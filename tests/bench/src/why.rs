//! The supplier's page of a failing task of deadline 4,096, with few scheduling points or every tick one.
//! Where runs are named, the partition has so many that don't repeat.

use second::page;

use crate::curve::scattered;
use crate::library::{self, GRANULE};
use crate::rule::named;
use crate::steps;
use crate::timing::line;

/// Four numbers for each tick up to the longest deadline.
const NUMBERS: usize = 4 * 4096;

fn lines<const EDITION: u64>(name: &str, plan: &[u16], parts: &[u16], tasks: &[u16]) {
    let name = format!("page {name}{}", named::<EDITION>());
    let [mut rows, mut others] = [[0; NUMBERS]; 2];
    assert_eq!(
        library::page(EDITION, plan, parts, tasks, 4, &mut rows).first,
        0,
        "{name}"
    );
    let mut library = || library::page(EDITION, plan, parts, tasks, 4, &mut rows);
    line(&name, &mut library, || {
        page::page(EDITION, GRANULE, plan, parts, tasks, 4, &mut others)
    });
    line(&format!("{name}, same"), &mut library, || {
        steps::page::<EDITION>(plan, parts, tasks, 4, &mut others)
    });
    assert_eq!(rows, others, "{name}");
}

pub fn run() {
    let seldom = [
        1, 80, 500, 500, 1, 90, 700, 700, 1, 99, 900, 900, 1, 4000, 4096, 4096,
    ];
    let always = [
        1, 1, 1, 1, 1, 90, 700, 700, 1, 99, 900, 900, 1, 4000, 4096, 4096,
    ];
    let often_own = [1, 1, 0, 1].repeat(1024);
    let cases = [
        ("F 4096", &often_own, [4, 2, 4]),
        ("F 4096, runs 128", &scattered(4096, 128), [4096, 1, 4]),
        ("F 4096, runs 1023", &scattered(4096, 1023), [4096, 1, 8]),
    ];
    for (name, plan, parts) in cases {
        lines::<1>(name, plan, &parts, &seldom);
        lines::<2>(name, plan, &parts, &seldom);
        lines::<1>(&format!("{name}, all"), plan, &parts, &always);
    }
}
