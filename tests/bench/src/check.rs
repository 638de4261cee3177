//! The checker: sixteen partitions in the longest frame, with shorter and with the longest cycles. In
//! edition 2 the shares are smaller, since each run has a switch tick.

use second::{builder, plan};

use crate::library::{self, GRANULE};
use crate::rule::named;
use crate::timing::line;
use crate::walk;

fn lines<const EDITION: u64>(cycle: u16) {
    let mut short = vec![0; cycle.into()];
    builder::build(GRANULE, &[cycle, 1, 16].repeat(16), &mut short);
    let ticks = short.repeat(4096 / usize::from(cycle));
    let den = if EDITION == 1 { 16 } else { 22 };
    let parts = [cycle, 1, den].repeat(16);
    let name = format!("check 16 x 4096, m {cycle}{}", named::<EDITION>());
    let library = || library::check(EDITION, &ticks, &parts);
    assert_eq!(library().number, 0, "{name}");
    line(&name, library, || {
        plan::check(EDITION, GRANULE, &ticks, &parts)
    });
    line(&format!("{name}, same"), library, || {
        walk::check::<EDITION>(&ticks, &parts)
    });
}

pub fn run() {
    for cycle in [64, 512, 4096] {
        lines::<1>(cycle);
        lines::<2>(cycle);
    }
}
