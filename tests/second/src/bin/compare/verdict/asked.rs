//! A task that is asked about, and the calls of both engines in both programs.

use second::editions::Edition;
use second::inputs::files::Tables;
use second::inputs::plans::Served;
use second::inputs::{editions, faults, granules, plans, tables};
use second::rng::Rng;
use second::service::Service;
use second::{ticks, verdict, Answer};

use crate::batch::Entry;
use crate::listing;
use crate::seen::{kind, Seen};
use crate::trial::Trial;

#[derive(Clone, Debug)]
pub struct Input {
    pub edition: u64,
    pub granule: u64,
    pub plan: Vec<u16>,
    pub parts: Vec<u16>,
    pub tasks: Vec<u16>,
}

impl From<Served> for Input {
    /// No tasks yet.
    fn from(served: Served) -> Input {
        Input {
            edition: served.edition.number(),
            granule: served.granule,
            plan: served.plan,
            parts: served.parts,
            tasks: Vec::new(),
        }
    }
}

impl Input {
    pub fn partitions(&self) -> usize {
        self.parts.len() / 3
    }

    /// How many tasks there are, which is the last one's place too.
    pub fn listed(&self) -> usize {
        self.tasks.len() / 4
    }

    /// The numbers of the task at a place.
    pub fn task(&mut self, place: usize) -> &mut [u16] {
        &mut self.tasks[4 * (place - 1)..][..4]
    }

    /// Whom the plan's ticks serve; in edition 1, where its own is refused.
    pub fn service(&self) -> Service {
        let edition = Edition::of(self.edition).unwrap_or(Edition::One);
        Service::new(edition, &self.plan)
    }

    /// The bytes of the plan file.
    pub fn file(&self) -> Vec<u8> {
        let tables = Tables {
            edition: self.edition,
            frame: self.plan.len() as u64,
            parts: self.parts.clone(),
            tasks: self.tasks.clone(),
            runs: ticks::to_runs(&self.plan),
        };
        tables.bytes()
    }
}

/// An entry, and what the second program makes of its call.
type Engine = (Entry, fn(u64, u64, &[u16], &[u16], &[u16], usize) -> Answer);

pub const VERDICT: Engine = (Entry::Verdict, verdict::verdict);
pub const PLAIN: Engine = (Entry::Plain, verdict::plain);

/// What both engines say of a task.
#[derive(Clone, Copy, Debug, PartialEq)]
pub enum Judged {
    Refused(Answer),
    Fail,
    Pass { point: u64, tick: u64 },
}

/// Asks one engine.
pub fn ask(trial: &mut Trial, engine: Engine, input: &Input, place: usize) -> Answer {
    let (entry, judged) = engine;
    let Input {
        edition,
        granule,
        plan,
        parts,
        tasks,
    } = input;
    let answer = judged(*edition, *granule, plan, parts, tasks, place);
    let given = [*edition, *granule, place as u64];
    let call = trial.call(entry, &given, answer);
    call.reads(plan).reads(parts).reads(tasks);
    answer
}

/// Asks both engines. The second program's, with which the library's are compared, refuse by one
/// chain; "both give pass or fail alike", and the tick is never above the point.
pub fn compare(trial: &mut Trial, input: &Input, place: usize) -> Judged {
    let [verdict, plain] = [VERDICT, PLAIN].map(|engine| ask(trial, engine, input, place));
    let asked = (input, place, verdict, plain);
    if verdict.number != 0 {
        return Judged::Refused(verdict);
    }
    let [point, tick] = [verdict.first, plain.first];
    let found = (plain.number, tick > 0);
    trial.same((asked, "judged alike"), found, (0, point > 0));
    trial.same((asked, "the tick up to the point"), tick <= point, true);
    match point {
        0 => Judged::Fail,
        _ => Judged::Pass { point, tick },
    }
}

/// Asks both engines, and notes what they say.
pub fn judge(trial: &mut Trial, input: &Input, place: usize, seen: &mut Seen) -> Judged {
    let judged = compare(trial, input, place);
    note(seen, input, judged);
    judged
}

/// Every place of the table and the two beside it.
pub fn judge_all(trial: &mut Trial, input: &Input, seen: &mut Seen) {
    for place in 0..=input.listed() + 1 {
        judge(trial, input, place, seen);
    }
}

/// Every place of the table, and the listing of all.
pub fn judge_listed(trial: &mut Trial, input: &Input, seen: &mut Seen) {
    for place in 1..=input.listed() {
        judge(trial, input, place, seen);
    }
    listing::compare(trial, &input.file());
}

pub const BELOW: &str = "tick below the point";
pub const WELL_BELOW: &str = "tick up to half the point";
pub const PAST: &str = "tick past the frame";

/// A refusal, a fail, or a pass and where it lies.
fn note(seen: &mut Seen, input: &Input, judged: Judged) {
    match judged {
        Judged::Refused(answer) => seen.count(kind(answer)),
        Judged::Fail => seen.count("fail".to_string()),
        Judged::Pass { point, tick } => {
            for (lies, how) in [
                (true, "pass"),
                (tick < point, BELOW),
                (2 * tick <= point, WELL_BELOW),
                (tick > input.plan.len() as u64, PAST),
            ] {
                if lies {
                    seen.count(how.to_string());
                }
            }
        }
    }
}

/// A plan that serves a table of up to `count` partitions, within `longest` ticks, and no tasks.
pub fn without_tasks(rng: &mut Rng, count: usize, longest: usize) -> Input {
    let edition = editions::good(rng);
    let granule = granules::up_to(rng, longest);
    Input::from(plans::served(rng, edition, granule, count, longest))
}

/// A plan that serves a small table, and tasks with periods up to `period`.
pub fn served(rng: &mut Rng, tasks: usize, period: usize) -> Input {
    let longest = rng.between(1, 24);
    let mut input = without_tasks(rng, 3, longest);
    input.tasks = tables::tasks(rng, tasks, input.partitions(), period);
    input
}

/// Tables and a plan that serves them, with faults in some of them, and a place, at times outside.
pub fn faulty(rng: &mut Rng) -> (Input, usize) {
    let count = rng.between(0, 5);
    let mut input = served(rng, count, 30);
    let [partitions, frame] = [input.partitions(), input.plan.len()];
    if rng.one_in(3) {
        faults::partitions(rng, &mut input.parts, frame);
    }
    if rng.one_in(2) {
        faults::tasks(rng, &mut input.tasks, partitions);
    }
    if rng.one_in(3) {
        faults::plan(rng, &mut input.plan, partitions);
    }
    if rng.one_in(3) {
        plans::damage(rng, &mut input.plan, partitions);
    }
    input.granule = granules::or_other(rng, input.granule);
    input.edition = editions::or_other(rng, input.edition);
    let listed = input.listed();
    let outside = rng.pick(&[0, listed + 1, 1 << 32, (1 << 32) + 1, usize::MAX]);
    let place = if rng.one_in(3) {
        outside
    } else {
        rng.between(1, listed)
    };
    (input, place)
}
