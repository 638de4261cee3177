//! The desk's record and its table.

use second::desk::{self, Desk, Job};
use second::inputs::requests::Request;
use second::limits::JOBS;
use second::Answer;

#[derive(Clone)]
pub struct Table {
    desk: Desk,
    jobs: [Job; JOBS],
}

impl Table {
    pub fn opened(listed: &[Job]) -> Table {
        let count = listed.len() as u32;
        let mut desk = Desk { clock: 0, count };
        let mut jobs = [Job::default(); JOBS];
        jobs[..listed.len()].copy_from_slice(listed);
        assert_eq!(desk::open(&mut desk, &mut jobs).number, 0, "{listed:?}");
        Table { desk, jobs }
    }

    fn listed(&self) -> &[Job] {
        &self.jobs[..self.desk.count as usize]
    }

    /// The end of the first job, which after a 16 is the running one.
    pub fn first_end(&self) -> u32 {
        self.jobs[0].end()
    }

    /// Asks the desk. Without place l, what only that place takes is refused.
    pub fn ask(&mut self, asked: Request, with_place_l: bool) -> Answer {
        let before = self.clone();
        let answer = self.request(asked);
        let l = asked.l(asked.left(before.listed()));
        if with_place_l || answer.number != 0 || answer.first as usize != l {
            return answer;
        }
        *self = before;
        // No job ends by 0, so this is refused, and drops jobs and sets the clock as 18 does.
        self.request(Request {
            c: 1,
            d: 0,
            ..asked
        })
    }

    fn request(&mut self, asked: Request) -> Answer {
        let Request { t, c, d } = asked;
        desk::request(&mut self.desk, &mut self.jobs, t, c, d)
    }
}

#[cfg(test)]
mod tests {
    use second::inputs::jobs::{self, Spread};
    use second::inputs::requests::{within_limits, Request};
    use second::limits::JOBS;
    use second::rng::Rng;

    use super::Table;

    /// Tables that end well before 1,000,000.
    fn some_table(rng: &mut Rng) -> Table {
        let count = rng.between(0, JOBS);
        let spread = Spread {
            from: rng.between(0, 20),
            ..jobs::spread(rng)
        };
        let (_, jobs) = jobs::table(rng, count, spread);
        Table::opened(&jobs[..count])
    }

    /// After a 16 the desk is busy up to the end of the first job left, and not at that end.
    #[test]
    fn asking_again_at_the_end_is_not_busy() {
        let mut rng = Rng::new(6);
        let mut busy = 0;
        for _ in 0..4000 {
            let mut table = some_table(&mut rng);
            for _ in 0..20 {
                let asked = within_limits(&mut rng, table.desk.clock, table.listed());
                if table.ask(asked, true).number != 16 {
                    continue;
                }
                busy += 1;
                let end = table.first_end();
                assert!(asked.t < end, "{asked:?}");
                let number_at = |t| table.clone().ask(Request { t, ..asked }, true).number;
                assert!((asked.t..end).all(|t| number_at(t) == 16), "{asked:?}");
                assert!([0, 17, 18].contains(&number_at(end)), "{asked:?}");
                table.ask(Request { t: end, ..asked }, true);
            }
        }
        assert!(busy > 10_000, "{busy}");
    }
}
