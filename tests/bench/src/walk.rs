//! The library's own method of least service and check once more, in Rust: of all stretches of one
//! length the first is counted, and from start to start the tick that enters is added and the tick
//! that leaves is taken off. It is given good tables: of what tells against a plan only 9 is looked
//! for.

use std::ops::Range;

use second::records::{self, Partition};
use second::Answer;

use crate::rule;

/// What the ticks of a range within the frame hold. In edition 1 a tick need not be told from the one
/// before, so that several are counted at a time.
fn within<const EDITION: u64>(plan: &[u16], p: u16, range: Range<usize>) -> u64 {
    if EDITION == 1 {
        let own = plan[range].iter().filter(|&&owner| owner == p);
        return own.count() as u64;
    }
    range
        .filter(|&tick| rule::own::<EDITION>(plan, tick, p))
        .count() as u64
}

/// What the n ticks from tick 0 on hold. Whole frames are counted once.
fn counted<const EDITION: u64>(plan: &[u16], p: u16, n: usize) -> u64 {
    if n < plan.len() {
        return within::<EDITION>(plan, p, 0..n);
    }
    let over = n % plan.len();
    let held = within::<EDITION>(plan, p, 0..over);
    let rest = within::<EDITION>(plan, p, over..plan.len());
    (n / plan.len()) as u64 * (held + rest) + held
}

/// Tells each start with what the n ticks from there on hold, up to the first that is not `good`.
fn walk<const EDITION: u64>(
    plan: &[u16],
    p: u16,
    n: usize,
    mut good: impl FnMut(usize, u64) -> bool,
) {
    let own = |tick: usize| u64::from(rule::own::<EDITION>(plan, tick, p));
    let mut held = counted::<EDITION>(plan, p, n);
    let mut enters = n % plan.len();
    for start in 0..plan.len() {
        if !good(start, held) {
            return;
        }
        held = held + own(enters) - own(start);
        enters += 1;
        if enters == plan.len() {
            enters = 0;
        }
    }
}

pub fn least<const EDITION: u64>(plan: &[u16], p: u16, t: usize) -> u64 {
    let mut least = u64::MAX;
    walk::<EDITION>(plan, p, t, |_, held| {
        least = least.min(held);
        true
    });
    least
}

/// The lowest start from which t ticks hold no more than the least.
pub fn worst_start<const EDITION: u64>(plan: &[u16], p: u16, t: usize, least: u64) -> usize {
    let mut worst = plan.len();
    walk::<EDITION>(plan, p, t, |start, held| {
        worst = start;
        held != least
    });
    worst
}

/// "q = num·m/den, rounded up": divided, as the library does, and not counted.
pub fn wants(partition: &Partition) -> u64 {
    (u64::from(partition.num) * u64::from(partition.cycle)).div_ceil(partition.den.into())
}

pub fn serves<const EDITION: u64>(plan: &[u16], partitions: &[Partition]) -> Result<(), Answer> {
    for (partition, p) in partitions.iter().zip(1..) {
        let wanted = wants(partition);
        let mut found = Ok(());
        walk::<EDITION>(plan, p, partition.m(), |start, held| {
            if held < wanted {
                let values = [p.into(), start as u64, held, wanted];
                found = Err(Answer::new(9, values));
            }
            held >= wanted
        });
        found?;
    }
    Ok(())
}

pub fn check<const EDITION: u64>(plan: &[u16], parts: &[u16]) -> Answer {
    let partitions = records::partitions(parts);
    let served = partitions.and_then(|partitions| serves::<EDITION>(plan, &partitions));
    served.map_or_else(|refusal| refusal, |()| Answer::good([0; 4]))
}
