//! What the desk promises over any requests after one opening.

use second::desk::Job;
use second::inputs::requests::Request;
use second::Answer;

/// A job and what the desk promised about it.
#[derive(Clone, Copy, Debug)]
struct Promised {
    earliest: u32,
    job: Job,
}

/// All jobs since the opening: those listed, and those that were dropped.
#[derive(Debug)]
pub struct Record {
    listed: Vec<Promised>,
    dropped: Vec<Promised>,
}

impl Record {
    pub fn new(listed: &[Job]) -> Record {
        let promised = |job: &Job| Promised {
            earliest: job.a,
            job: *job,
        };
        Record {
            listed: listed.iter().map(promised).collect(),
            dropped: Vec::new(),
        }
    }

    /// Follows a request to the jobs that are listed now; nothing started is moved, nothing goes to
    /// an earlier tick, and nothing is moved farther than its x was: "a place with enough room never
    /// leads to a move beyond a job's flexibility".
    pub fn follow(&mut self, request: Request, answer: Answer, listed: &[Job]) -> bool {
        let Request { t, c, d } = request;
        if ![13, 14, 15].contains(&answer.number) {
            let (gone, left) = self.listed.iter().partition(|one| one.job.end() <= t);
            self.dropped.extend::<Vec<Promised>>(gone);
            self.listed = left;
        }
        if answer.number == 0 {
            let [a, x] = [answer.second as u32, 0];
            let job = Job { a, c, d, x };
            self.listed
                .insert(answer.first as usize, Promised { earliest: t, job });
        }
        let same_count = self.listed.len() == listed.len();
        same_count
            && self.listed.iter_mut().zip(listed).all(|(one, now)| {
                let was = one.job;
                one.job = *now;
                let farthest = if was.a < t { 0 } else { was.x };
                let starts = was.a..=was.a + farthest;
                starts.contains(&now.a) && (now.c, now.d) == (was.c, was.d)
            })
    }

    /// "no job starts before its opening start (a job taken in later: before its request time),
    /// no two overlap, each ends by its deadline"
    pub fn kept(&self) -> bool {
        let all = [&self.dropped[..], &self.listed].concat();
        let kept = |one: &Promised| one.earliest <= one.job.a && one.job.end() <= one.job.d;
        let span = |one: &Promised| (one.job.a, one.job.end());
        let mut spans: Vec<(u32, u32)> = all.iter().map(span).collect();
        spans.sort_unstable();
        all.iter().all(kept) && spans.windows(2).all(|pair| pair[0].1 <= pair[1].0)
    }
}
