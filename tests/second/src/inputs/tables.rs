//! Tables of good partitions and tasks.

use crate::rng::Rng;
use crate::service::Service;
use crate::shares;

/// A share, in small numbers more often than up to the limit.
pub fn share(rng: &mut Rng) -> [u16; 2] {
    let most = rng.pick(&[4, 10, 100, 1000]);
    let den = rng.between(1, most);
    let num = match rng.between(0, 3) {
        0 => den,
        1 => rng.between(1, den),
        _ => rng.between(1, den / 3),
    };
    [num as u16, den as u16]
}

/// Partitions whose cycles are at most `longest`.
pub fn partitions(rng: &mut Rng, count: usize, longest: usize) -> Vec<u16> {
    let mut parts = Vec::new();
    for _ in 0..count {
        parts.push(rng.between(1, longest) as u16);
        parts.extend(share(rng));
    }
    parts
}

/// Tasks with periods up to `longest`; budgets are mostly small, so that some pass.
pub fn tasks(rng: &mut Rng, count: usize, partitions: usize, longest: usize) -> Vec<u16> {
    let mut tasks = Vec::new();
    for _ in 0..count {
        let t = rng.between(1, longest);
        let d = if rng.one_in(2) { t } else { rng.between(1, t) };
        let c = if rng.one_in(3) {
            rng.between(1, d)
        } else {
            rng.between(1, d / 8)
        };
        let partition = rng.between(1, partitions);
        tasks.extend([partition, c, d, t].map(|number| number as u16));
    }
    tasks
}

/// Cycles of which each divides the next, up to `longest`: powers of a base, or any factors. Most
/// often the first is no shorter than a granule, if it can be.
fn chain(rng: &mut Rng, granule: usize, longest: usize) -> Vec<usize> {
    let shortest = if rng.one_in(4) { 1 } else { granule };
    let most = longest.min(6 * shortest);
    let mut cycle = rng.between(shortest.min(longest), most);
    let base = rng.between(2, 4);
    let powers = rng.one_in(2);
    let mut chain = vec![cycle];
    loop {
        cycle *= if powers { base } else { rng.between(2, 7) };
        if cycle > longest || rng.one_in(8) {
            return chain;
        }
        chain.push(cycle);
    }
}

/// A harmonic table with shares that add up to about one, and more where granules round them up.
pub fn harmonic(rng: &mut Rng, granule: u64, count: usize, longest: usize) -> Vec<u16> {
    let chain = chain(rng, granule as usize, longest);
    let mut parts = Vec::new();
    for _ in 0..count {
        let den = rng.between(1, 1000);
        let num = rng.between(1, 2 * den / count).min(den);
        parts.extend([rng.pick(&chain), num, den].map(|number| number as u16));
    }
    parts
}

/// Sixteen partitions that want every tick together, with cycles up to 128.
pub fn sixteen(rng: &mut Rng) -> Vec<u16> {
    let mut parts = Vec::new();
    for _ in 0..15 {
        parts.extend([rng.pick(&[16, 32, 64]), 1, 16]);
    }
    parts.extend([128, 1, 16]);
    parts
}

/// A table that a plan of this service serves, for partitions that have a granule of service ticks
/// in it; often a partition has none beyond its share. The frame is at most 1,000 ticks.
pub fn served_by(rng: &mut Rng, granule: u64, service: &Service, partitions: usize) -> Vec<u16> {
    let frame = service.frame();
    let granule = granule as usize;
    let mut parts = Vec::new();
    for p in 1..=partitions {
        let granules = |m: usize| service.least(p as u16, m as u32) as usize / granule;
        let some = rng.between(1, frame);
        let m = if granules(some) > 0 { some } else { frame };
        let all = granules(m);
        let some = rng.between(1, all);
        let q = granule * rng.pick(&[all, some]);
        let num = rounded_up_to(rng, granule, q);
        parts.extend([m, num, m].map(|number| number as u16));
    }
    parts
}

/// As many ticks, or fewer that a granule rounds up to them.
fn rounded_up_to(rng: &mut Rng, granule: usize, q: usize) -> usize {
    let fewer = rng.between(q + 1 - granule, q);
    rng.pick(&[fewer, q])
}

/// A share of exactly q ticks in m, rounded up to whole ones, if there is one.
fn share_of(q: usize, m: usize) -> Option<[usize; 2]> {
    let sized = |den: usize| [q * den / m, den];
    let exact = |[num, den]: &[usize; 2]| {
        *num >= 1 && shares::wants(1, m as u16, *num as u16, *den as u16) == q as u64
    };
    let usual = if m <= 1000 { [q, m] } else { sized(1000) };
    let tried = (1..=1000).rev().map(sized);
    [usual].into_iter().chain(tried).find(exact)
}

/// A harmonic table whose partitions want every granule of the frame's ticks, as far as the limits
/// on shares let it; one granule too many with `above`.
pub fn full(rng: &mut Rng, granule: u64, count: usize, longest: usize, above: bool) -> Vec<u16> {
    let granule = granule as usize;
    let chain = chain(rng, granule, longest);
    let frame = chain[chain.len() - 1];
    let mut free = frame;
    let mut records = Vec::new();
    while free > 0 && records.len() + 1 < count {
        let m = rng.pick(&chain);
        let q = granule * rng.between(1, free * m / frame / 2 / granule);
        if q * frame / m > free {
            break;
        }
        let exact = rounded_up_to(rng, granule, q);
        if let Some([num, den]) = share_of(exact, m) {
            records.push([m, num, den]);
            free -= q * frame / m;
        } else {
            break;
        }
    }
    let rest = free / granule * granule + granule * usize::from(above);
    let exact = rounded_up_to(rng, granule, rest.max(granule));
    let last = share_of(exact.clamp(1, frame), frame).unwrap_or([1, 1]);
    records.push([frame, last[0], last[1]]);
    rng.shuffle(&mut records);
    records
        .concat()
        .iter()
        .map(|&number| number as u16)
        .collect()
}

/// A harmonic table of up to `count` partitions, full or not.
pub fn some_harmonic(rng: &mut Rng, granule: u64, count: usize, longest: usize) -> Vec<u16> {
    let count = rng.between(1, count);
    if rng.one_in(2) {
        full(rng, granule, count, longest, false)
    } else {
        harmonic(rng, granule, count, longest)
    }
}
