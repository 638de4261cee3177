//! Tasks for a plan: budgets about what it leaves, and deadlines and periods about its frame.

use crate::limits::PERIOD;
use crate::rng::Rng;
use crate::service::Service;

/// What the higher tasks of a partition leave of least(D).
fn left(service: &Service, tasks: &[u16], p: u16, d: usize) -> usize {
    let higher = tasks.chunks(4).filter(|task| task[0] == p);
    let demand = higher.map(|task| usize::from(task[1]) * d.div_ceil(task[3].into()));
    let least = service.least(p, d as u32) as usize;
    least.saturating_sub(demand.sum())
}

/// Adds a task whose budget is small, or all that is left, or a tick beside that.
pub fn add(rng: &mut Rng, service: &Service, tasks: &mut Vec<u16>, [p, d, t]: [usize; 3]) {
    let all = left(service, tasks, p as u16, d);
    let c = match rng.between(0, 6) {
        0 => all + 1,
        1 => all,
        2 => all.saturating_sub(1),
        _ => rng.between(1, all / 4),
    };
    let task = [p, c.clamp(1, d), d, t];
    tasks.extend(task.map(|number| number as u16));
}

/// D of one tick, about the frame, about the end of several frames, or any.
pub fn deadline(rng: &mut Rng, frame: usize) -> usize {
    let several = rng.between(2, 9) * frame;
    let d = match rng.between(0, 8) {
        0 => 1,
        1 => frame - 1,
        2 => frame,
        3 => frame + 1,
        4 => several,
        5 => several + 1,
        _ => rng.between(1, 4 * frame),
    };
    d.clamp(1, PERIOD as usize)
}

/// T from D on.
pub fn period(rng: &mut Rng, d: usize) -> usize {
    let longer = rng.between(d, 3 * d);
    rng.pick(&[d, d, d + 1, longer]).min(PERIOD as usize)
}
