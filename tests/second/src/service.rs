//! "Service, least service and the verdict are written once with the rule as an input" (ask 6 of
//! document 02): whom the ticks of a plan serve, and what is counted of them.

use crate::editions::Edition;

/// Whom each tick of a plan serves: a partition, or 0 for nobody, whether the tick is idle or spent
/// on switching.
#[derive(Clone, Debug)]
pub struct Service {
    served: Vec<u16>,
}

impl Service {
    pub fn new(edition: Edition, plan: &[u16]) -> Service {
        let ticks = 0..plan.len();
        Service {
            served: ticks.map(|tick| edition.serves(plan, tick)).collect(),
        }
    }

    pub fn frame(&self) -> usize {
        self.served.len()
    }

    /// Whom a tick of the repeated plan serves. Of an empty plan every tick is idle.
    pub fn at(&self, tick: usize) -> u16 {
        match self.frame() {
            0 => 0,
            frame => self.served[tick % frame],
        }
    }

    /// The service ticks of partition p in the n ticks of the repeated plan from tick s on.
    pub fn held(&self, p: u16, s: u32, n: u32) -> u64 {
        if self.served.is_empty() {
            return if p == 0 { u64::from(n) } else { 0 };
        }
        self.count(p, s as usize % self.frame(), u64::from(n))
    }

    /// Counts n ticks from a start inside the frame. "It repeats without end."
    pub fn count(&self, p: u16, start: usize, n: u64) -> u64 {
        let mut tick = start;
        let mut held = 0;
        for _ in 0..n {
            if self.served[tick] == p {
                held += 1;
            }
            tick += 1;
            if tick == self.frame() {
                tick = 0;
            }
        }
        held
    }

    /// "least(t) is the smallest number of a partition's ticks in any t consecutive ticks of the
    /// repeated plan".
    pub fn least(&self, p: u16, t: u32) -> u64 {
        let starts = 0..self.frame();
        let counts = starts.map(|start| self.count(p, start, u64::from(t)));
        counts.min().unwrap_or(self.held(p, 0, t))
    }

    /// least(0), least(1), ... up to `longest`, walking on from each start once.
    pub fn least_up_to(&self, p: u16, longest: usize) -> Vec<u64> {
        if self.served.is_empty() {
            let each = (0..=longest).map(|t| self.least(p, t as u32));
            return each.collect();
        }
        let mut least: Vec<u64> = (0..=longest as u64).collect();
        for start in 0..self.frame() {
            let mut held = 0;
            let ticks = self.served.iter().cycle().skip(start);
            for (smallest, &served) in least.iter_mut().skip(1).zip(ticks) {
                if served == p {
                    held += 1;
                }
                *smallest = held.min(*smallest);
            }
        }
        least
    }
}

#[cfg(test)]
mod tests {
    use super::Service;
    use crate::editions::Edition;
    use crate::inputs::plans;
    use crate::rng::Rng;

    #[test]
    fn walking_on_is_counting_anew() {
        let mut rng = Rng::new(1);
        for _ in 0..2000 {
            let ticks = rng.between(0, 9);
            let plan = plans::scattered(&mut rng, ticks, 2);
            let p = rng.pick(&[0, 1, 3]);
            let service = Service::new(rng.pick(&Edition::BOTH), &plan);
            for (t, smallest) in (0..).zip(service.least_up_to(p, 30)) {
                assert_eq!(
                    smallest,
                    service.least(p, t),
                    "{plan:?} {service:?} {p} {t}"
                );
            }
        }
    }

    #[test]
    fn a_start_may_lie_past_the_frame() {
        for edition in Edition::BOTH {
            let service = Service::new(edition, &[1, 0, 0, 1]);
            // 4,294,967,295 is three ticks past a multiple of the frame.
            assert_eq!(service.held(1, u32::MAX, 2), service.held(1, 3, 2));
            assert_eq!((service.at(7), service.at(8)), (service.at(3), 1));
        }
    }

    #[test]
    fn an_empty_plan_is_idle() {
        for edition in Edition::BOTH {
            let empty = Service::new(edition, &[]);
            assert_eq!((empty.held(0, 2, 5), empty.held(1, 2, 5)), (5, 0));
            assert_eq!((empty.least(0, 5), empty.least(1, 5)), (5, 0));
            assert_eq!(empty.at(3), 0);
        }
    }
}
