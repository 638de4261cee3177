//! "Plan" and "Least service": what a plan holds, and the checker.

use crate::answer::Answer;
use crate::editions::Edition;
use crate::records::{self, Partition};
use crate::service::Service;

/// The service ticks of partition p in the n ticks of the repeated plan from tick s on: 2. For p 0
/// the ticks that serve nobody.
pub fn held(edition: u64, plan: &[u16], p: u16, s: u32, n: u32) -> Answer {
    counted(edition, plan, |service| service.held(p, s, n))
}

/// Least service: 2.
pub fn least(edition: u64, plan: &[u16], p: u16, t: u32) -> Answer {
    counted(edition, plan, |service| service.least(p, t))
}

fn counted(edition: u64, plan: &[u16], count: impl Fn(&Service) -> u64) -> Answer {
    match Edition::of(edition) {
        Ok(edition) => Answer::good([count(&Service::new(edition, plan)), 0, 0, 0]),
        Err(refusal) => refusal,
    }
}

/// The checker: 2, 3, 21, 6, 8, 9.
pub fn check(edition: u64, granule: u64, plan: &[u16], parts: &[u16]) -> Answer {
    match checked(edition, granule, plan, parts) {
        Ok(()) => Answer::good([0; 4]),
        Err(refusal) => refusal,
    }
}

fn checked(edition: u64, granule: u64, plan: &[u16], parts: &[u16]) -> Result<(), Answer> {
    let edition = Edition::of(edition)?;
    let partitions = by_the_rules(granule, plan, parts)?;
    serves(&Service::new(edition, plan), granule, &partitions)
}

/// The partitions of a plan that comes in, whether it serves or not: 3, 21, 6, 8.
pub(crate) fn by_the_rules(
    granule: u64,
    plan: &[u16],
    parts: &[u16],
) -> Result<Vec<Partition>, Answer> {
    let partitions = records::partitions(parts)?;
    records::frame(plan.len() as u64)?;
    records::granule(granule)?;
    records::partition_rules(&partitions, plan.len())?;
    records::tick_rules(plan, partitions.len())?;
    Ok(partitions)
}

/// "every stretch of m consecutive ticks of the repeated plan, from any start and across the
/// frame's end too, holds at least q ticks of that partition". "For 9: lowest partition, then
/// lowest start". Where q is more than m, start 0 falls short already.
pub fn serves(service: &Service, granule: u64, partitions: &[Partition]) -> Result<(), Answer> {
    for (index, partition) in partitions.iter().enumerate() {
        let p = index + 1;
        let wanted = partition.wants(granule);
        for start in 0..service.frame() {
            let held = service.count(p as u16, start, partition.m() as u64);
            if held < wanted {
                return Err(Answer::new(9, [p as u64, start as u64, held, wanted]));
            }
        }
    }
    Ok(())
}
