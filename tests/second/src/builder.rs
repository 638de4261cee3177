//! "Harmonic rule": the builder.

use crate::answer::Answer;
use crate::limits::CYCLE;
use crate::records::{self, Partition};

/// The builder: 3, 21, 6, 10, 11, 12. Only the frame's ticks of `out` are written.
pub fn build(granule: u64, parts: &[u16], out: &mut [u16]) -> Answer {
    match built(granule, parts, out.len()) {
        Ok(plan) => {
            out[..plan.len()].copy_from_slice(&plan);
            Answer::good([plan.len() as u64, 0, 0, 0])
        }
        Err(refusal) => refusal,
    }
}

fn built(granule: u64, parts: &[u16], out_ticks: usize) -> Result<Vec<u16>, Answer> {
    let partitions = records::partitions(parts)?;
    records::granule(granule)?;
    records::partition_rules(&partitions, CYCLE)?;
    if !harmonic(&partitions) {
        return Err(Answer::refused(10));
    }
    let frame = partitions.iter().map(Partition::m).max().unwrap_or(0);
    if demanded(granule, &partitions, frame) > frame as u64 {
        return Err(Answer::refused(11));
    }
    if out_ticks < frame {
        return Err(Answer::refused(12));
    }
    Ok(given(granule, &partitions, frame))
}

/// "Of any two cycles, one divides the other."
fn harmonic(partitions: &[Partition]) -> bool {
    let divides = |a: &Partition, b: &Partition| b.m().is_multiple_of(a.m());
    partitions
        .iter()
        .all(|a| partitions.iter().all(|b| divides(a, b) || divides(b, a)))
}

/// "the sum of q·H/m". "If q passes m the sum rule refuses it."
fn demanded(granule: u64, partitions: &[Partition], frame: usize) -> u64 {
    let ticks = |one: &Partition| one.wants(granule) * (frame / one.m()) as u64;
    partitions.iter().map(ticks).sum()
}

/// "Take partitions by rising cycle, equal cycles by place. In each cycle, counted from tick 0,
/// give the partition its q earliest idle ticks."
fn given(granule: u64, partitions: &[Partition], frame: usize) -> Vec<u16> {
    let mut plan = vec![0; frame];
    let mut places: Vec<usize> = (0..partitions.len()).collect();
    places.sort_by_key(|&place| partitions[place].m());
    for place in places {
        let owner = place as u16 + 1;
        for cycle in plan.chunks_mut(partitions[place].m()) {
            give(cycle, owner, partitions[place].wants(granule));
        }
    }
    plan
}

fn give(cycle: &mut [u16], owner: u16, wants: u64) {
    let mut given = 0;
    for tick in cycle.iter_mut() {
        if *tick == 0 && given < wants {
            *tick = owner;
            given += 1;
        }
    }
}

#[cfg(test)]
mod tests {
    use super::{build, demanded};
    use crate::answer::Answer;
    use crate::records;

    /// "the sum of q·H/m", and what the builder answers with as many ticks as it may need.
    fn summed(granule: u64, parts: &[u16]) -> (u64, Answer) {
        let partitions = records::partitions(parts).unwrap_or_default();
        let frame = partitions.iter().map(|one| one.m()).max().unwrap_or(0);
        let sum = demanded(granule, &partitions, frame);
        (sum, build(granule, parts, &mut [0; 4096]))
    }

    #[test]
    fn the_largest_sum() {
        let parts = [[1, 1, 1].repeat(15), vec![4096, 1, 1]].concat();
        assert_eq!(summed(16, &parts), (987_136, Answer::refused(11)));
        assert_eq!(summed(1, &parts), (65_536, Answer::refused(11)));
    }

    #[test]
    fn the_frame_and_one_tick_more() {
        let built = |frame| Answer::good([frame, 0, 0, 0]);
        assert_eq!(summed(16, &[32, 1, 2, 32, 1, 99]), (32, built(32)));
        assert_eq!(
            summed(16, &[31, 1, 2, 31, 1, 99]),
            (32, Answer::refused(11))
        );
        assert_eq!(summed(16, &[4096, 1, 1]), (4096, built(4096)));
        assert_eq!(summed(16, &[4095, 1, 1]), (4096, Answer::refused(11)));
        let sixteen = [4096, 15, 256].repeat(16);
        assert_eq!(summed(16, &sixteen), (3840, built(4096)));
        assert_eq!(summed(15, &sixteen), (3840, built(4096)));
        assert_eq!(summed(14, &sixteen), (4032, built(4096)));
        assert_eq!(summed(13, &sixteen), (3952, built(4096)));
    }
}
