//! Running counts: 100,000 questions in one call, in the longest frame of sixteen partitions. Beside
//! it stand walking each question, by the second program and by the library, and the call's own
//! method once more.

use second::editions::Edition;
use second::rng::Rng;
use second::service::Service;
use second::{counts, inputs::plans, Answer};

use crate::library;
use crate::timing::line;

const QUESTIONS: usize = 100_000;
const PARTITIONS: usize = 16;
const FRAME: usize = 4096;

struct Asked {
    plan: Vec<u16>,
    parts: Vec<u16>,
    list: Vec<u16>,
    questions: Vec<u16>,
}

impl Asked {
    fn new() -> Asked {
        let mut rng = Rng::new(1);
        let plan = plans::scattered(&mut rng, FRAME, PARTITIONS);
        let parts = [4096, 1, 16].repeat(PARTITIONS);
        let mut list = vec![0; PARTITIONS * (FRAME + 1)];
        counts::fill(&plan, &parts, &mut list);
        let mut questions = Vec::new();
        for _ in 0..QUESTIONS {
            let ranges = [(1, PARTITIONS), (0, FRAME - 1), (0, FRAME)];
            questions.extend(ranges.map(|(low, high)| rng.between(low, high) as u16));
        }
        Asked {
            plan,
            parts,
            list,
            questions,
        }
    }

    fn each(&self) -> impl Iterator<Item = [u16; 3]> + '_ {
        let questions = self.questions.chunks_exact(3);
        questions.map(|one| [one[0], one[1], one[2]])
    }

    /// Fills the answers in by one count for each question.
    fn counted(&self, answers: &mut [u16], count: impl Fn(u16, u32, u32) -> u64) -> Answer {
        for (answer, [p, start, length]) in answers.iter_mut().zip(self.each()) {
            *answer = count(p, start.into(), length.into()) as u16;
        }
        Answer::good([QUESTIONS as u64, 0, 0, 0])
    }

    /// The call's method: list and questions are judged once, then an answer is two or three
    /// numbers of the list. Which refusal it would be is not told: none is timed.
    fn looked_up(&self, answers: &mut [u16]) -> Answer {
        let frame = self.plan.len();
        let partitions = self.parts.len() / 3;
        let named = |[p, ..]: [u16; 3]| p >= 1 && usize::from(p) <= partitions;
        let within = |[_, start, length]: [u16; 3]| {
            usize::from(start) < frame && usize::from(length) <= frame
        };
        let mut rows = (1..).zip(self.list.chunks_exact(frame + 1));
        let agrees = rows.all(|(p, row)| agrees(&self.plan, p, row));
        if !agrees || !self.each().all(named) || !self.each().all(within) {
            return Answer::refused(20);
        }
        for (answer, [p, start, length]) in answers.iter_mut().zip(self.each()) {
            let row = &self.list[usize::from(p - 1) * (frame + 1)..][..frame + 1];
            *answer = between(row, start.into(), length.into());
        }
        Answer::good([QUESTIONS as u64, 0, 0, 0])
    }
}

/// Whether a row has the running counts of its partition.
fn agrees(plan: &[u16], p: u16, row: &[u16]) -> bool {
    let mut own = 0;
    for (&count, &owner) in row.iter().zip(plan) {
        if count != own {
            return false;
        }
        own += u16::from(owner == p);
    }
    row[plan.len()] == own
}

/// The own ticks of a stretch, across the frame's end too, from the counts of its partition.
fn between(row: &[u16], start: usize, length: usize) -> u16 {
    let frame = row.len() - 1;
    let end = start + length;
    if end <= frame {
        row[end] - row[start]
    } else {
        row[frame] - row[start] + row[end - frame]
    }
}

/// The call beside another way to the same answers.
fn beside(name: &str, asked: &Asked, mut other: impl FnMut(&mut [u16]) -> Answer) {
    let Asked {
        plan,
        parts,
        list,
        questions,
    } = asked;
    let [mut ours, mut theirs] = [vec![0; QUESTIONS], vec![0; QUESTIONS]];
    line(
        name,
        || library::counts_held_many(plan, parts, list, questions, &mut ours),
        || other(&mut theirs),
    );
    assert_eq!(ours, theirs, "{name}");
}

pub fn run() {
    let asked = Asked::new();
    let plan = &asked.plan;
    let owned = Service::new(Edition::One, plan);
    let walked = |p, start, length| owned.held(p, start, length);
    let held = |p, start, length| library::held(1, plan, p, start, length).first;
    beside("counts, walked", &asked, |to| asked.counted(to, walked));
    beside("counts, library's held", &asked, |to| {
        asked.counted(to, held)
    });
    beside("counts, same method", &asked, |to| asked.looked_up(to));
}
