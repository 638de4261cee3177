//! Which kinds of answers were given.

use std::collections::BTreeMap;

use second::editions::Edition;
use second::{file, Answer};

use crate::trial::Trial;

/// How often each kind of answer was given, so that a trial can show that it came to all of them.
#[derive(Default)]
pub struct Seen(BTreeMap<String, u64>);

impl Seen {
    /// Notes an answer of the planner.
    pub fn note(&mut self, answer: &[u8]) {
        for kind in kinds(answer) {
            self.count(kind);
        }
    }

    pub fn count(&mut self, kind: String) {
        *self.0.entry(kind).or_default() += 1;
    }

    pub fn times(&self, kind: &str) -> u64 {
        self.0.get(kind).copied().unwrap_or(0)
    }

    /// More than `few` of each in `many` cases.
    pub fn share<K: AsRef<str>>(&self, trial: &mut Trial, kinds: &[K], share: [u64; 2]) {
        for kind in kinds {
            trial.share(kind.as_ref(), self.times(kind.as_ref()), share);
        }
    }
}

/// The number of an answer; 7 and 8 with place 0 apart from those with another.
pub fn kind(answer: Answer) -> String {
    match (answer.number, answer.first) {
        (number @ (7 | 8), 0) => format!("{number} with place 0"),
        (number, _) => number.to_string(),
    }
}

/// What was expected, or the refusal; of a plan its edition and the shapes that its runs can have.
fn kinds(answer: &[u8]) -> Vec<String> {
    let Ok(plan) = file::parse(answer) else {
        let line = String::from_utf8_lossy(answer);
        let said = line.trim_end().split(": expected ").last();
        // Of 9 without its values.
        let said = said.and_then(|said| said.split(" partition ").next());
        return vec![said.unwrap_or_default().to_string()];
    };
    let runs = plan.runs.len();
    let last_is_idle = plan.runs[runs - 1].owner == 0;
    let shapes = [
        (true, "a plan"),
        (plan.edition == Edition::Two, "a plan of edition 2"),
        (runs == 1, "one run"),
        (runs > 50, "many runs"),
        (last_is_idle, "idle at the end"),
        (!last_is_idle, "owned at the end"),
    ];
    let shapes = shapes.iter().filter(|(has, _)| *has);
    shapes.map(|(_, kind)| kind.to_string()).collect()
}
