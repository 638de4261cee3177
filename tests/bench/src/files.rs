//! The largest file, and files of its shape: sixteen partitions share the frame evenly, and the
//! partitions that have tasks have at least two, whose lines stand mixed. The first of them is
//! released often, so that the others have many points.

use second::inputs::files::Tables;
use second::limits::{FRAME, PARTITIONS, TASKS};
use second::rng::Rng;
use second::ticks;

#[derive(Clone, Copy)]
pub struct Shape {
    pub frame: usize,
    /// Of all tasks but the first of each partition.
    pub deadline: usize,
    pub tasks: usize,
    /// All of one length; a whole number of rounds of all partitions.
    pub runs: usize,
    /// Of the first task of each partition.
    pub period: usize,
    /// Of the second task of each partition.
    pub budget: usize,
}

/// Every tick is a point of all tasks but the first of each partition; they try it and fail.
pub const FAILING: Shape = Shape {
    frame: FRAME,
    deadline: FRAME,
    tasks: TASKS,
    runs: 2048,
    period: 1,
    budget: 1,
};

/// All tasks but the first of each partition pass, and not before tick 3,700. Up to there a task that
/// passes has no more points than its partition has ticks, so they are few.
pub const LATE: Shape = Shape {
    period: 32,
    budget: 115,
    ..FAILING
};

impl Shape {
    /// The same in a smaller frame, with all else as much smaller, down to a round of runs.
    pub fn within(self, frame: usize) -> Shape {
        let smaller = |number: usize| number * frame / self.frame;
        Shape {
            frame,
            deadline: smaller(self.deadline),
            runs: smaller(self.runs).max(PARTITIONS),
            budget: smaller(self.budget).max(1),
            ..self
        }
    }

    /// In every round each partition has a run, in an order by lot.
    pub fn plan(&self) -> Vec<u16> {
        let mut rng = Rng::new(1);
        let mut owners: Vec<u16> = (1..=PARTITIONS as u16).collect();
        let mut plan = Vec::new();
        for _ in 0..self.runs / PARTITIONS {
            rng.shuffle(&mut owners);
            if plan.last() == owners.first() {
                owners.rotate_left(1);
            }
            let lengths = owners.iter().map(|&p| vec![p; self.frame / self.runs]);
            plan.extend(lengths.flatten());
        }
        plan
    }

    fn task(&self, place: usize) -> [u16; 4] {
        let sharing = PARTITIONS.min(self.tasks / 2);
        let (rank, partition) = (place / sharing, 1 + place % sharing);
        let [c, d] = match rank {
            0 => [1, self.period],
            1 => [self.budget, self.deadline],
            _ => [1, self.deadline],
        };
        [partition, c, d, d].map(|number| number as u16)
    }

    /// Half of all ticks may be switch ticks in edition 2, and the shares are half as large there.
    pub fn bytes<const EDITION: u64>(&self) -> Vec<u8> {
        let den = PARTITIONS as u16 * EDITION as u16;
        let tables = Tables {
            edition: EDITION,
            frame: self.frame as u64,
            parts: [self.frame as u16, 1, den].repeat(PARTITIONS),
            tasks: (0..self.tasks).flat_map(|place| self.task(place)).collect(),
            runs: ticks::to_runs(&self.plan()),
        };
        assert_eq!(tables.runs.len() / 2, self.runs);
        tables.bytes()
    }
}
