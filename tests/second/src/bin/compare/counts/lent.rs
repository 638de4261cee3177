//! What is lent to the calls about the running counts, and the calls of both programs.

use second::editions::Edition;
use second::inputs::counts::Ask;
use second::inputs::{plans, tables};
use second::records::Question;
use second::rng::Rng;
use second::{counts, Answer};

use crate::batch::{Call, Entry};
use crate::trial::Trial;

/// What stands where nothing was written yet, and behind all that is lent.
pub const PATTERN: u16 = 0xA5C3;
const BEHIND: usize = 4;

/// All that is lent, but for questions and answers. The list may be longer than is needed.
#[derive(Clone, Debug)]
pub struct Lent {
    pub plan: Vec<u16>,
    pub parts: Vec<u16>,
    pub list: Vec<u16>,
}

impl Lent {
    /// With the plan's counts in the list, and so many numbers behind them.
    pub fn filled(plan: Vec<u16>, parts: Vec<u16>, tail: usize) -> Lent {
        let list = Vec::new();
        let mut lent = Lent { plan, parts, list };
        lent.list = vec![PATTERN; lent.needed() + tail];
        counts::fill(&lent.plan, &lent.parts, &mut lent.list);
        lent
    }

    pub fn partitions(&self) -> usize {
        self.parts.len() / 3
    }

    pub fn frame(&self) -> usize {
        self.plan.len()
    }

    pub fn needed(&self) -> usize {
        self.partitions() * (self.frame() + 1)
    }
}

/// A good plan, whether it serves or not, and its counts in a list that is exact or longer.
pub fn some_lent(rng: &mut Rng, longest: usize) -> Lent {
    let frame = rng.between(1, longest);
    let count = rng.pick(&[1, 2, 3, 5, 16]);
    let (plan, parts) = match rng.between(0, 2) {
        0 => {
            let served = plans::served(rng, Edition::One, 1, count, frame);
            (served.plan, served.parts)
        }
        1 => {
            let plan = plans::in_runs(rng, frame, count);
            (plan, tables::partitions(rng, count, frame))
        }
        _ => {
            let plan = plans::scattered(rng, frame, count);
            (plan, tables::partitions(rng, count, frame))
        }
    };
    let tail = rng.pick(&[0, 0, 1, 5]);
    Lent::filled(plan, parts, tail)
}

pub fn small_lent(rng: &mut Rng) -> Lent {
    let [frame, count] = [rng.between(1, 7), rng.between(1, 3)];
    let plan = plans::scattered(rng, frame, count);
    let parts = tables::partitions(rng, count, frame);
    Lent::filled(plan, parts, 2)
}

/// Asks both programs. Answer and all lent must agree.
pub fn ask(trial: &mut Trial, lent: &mut Lent, asked: &Ask) -> Answer {
    match asked {
        Ask::Fill => fill(trial, lent),
        Ask::Held(question) => held(trial, lent, *question),
        Ask::HeldMany { questions, answers } => held_many(trial, lent, questions, *answers),
        Ask::Change { tick, owner } => change(trial, lent, *tick, *owner),
    }
}

fn fill(trial: &mut Trial, lent: &mut Lent) -> Answer {
    let before = lent.clone();
    let answer = counts::fill(&lent.plan, &lent.parts, &mut lent.list);
    lend_all(trial.call(Entry::CountsFill, &[], answer), &before, lent);
    answer
}

pub fn held(trial: &mut Trial, lent: &Lent, question: Question) -> Answer {
    let Question {
        partition,
        start,
        length,
    } = question;
    let answer = counts::held(&lent.plan, &lent.parts, &lent.list, question);
    let given = [partition, start, length].map(|number| number as u64);
    lend_all(trial.call(Entry::CountsHeld, &given, answer), lent, lent);
    answer
}

pub fn held_many(trial: &mut Trial, lent: &Lent, questions: &[u16], answers: usize) -> Answer {
    let before = vec![PATTERN; answers];
    let mut after = before.clone();
    let Lent { plan, parts, list } = lent;
    let answer = counts::held_many(plan, parts, list, questions, &mut after);
    let call = trial.call(Entry::CountsHeldMany, &[], answer);
    let call = lend(lend_all(call, lent, lent), questions, questions);
    lend(call, &before, &after);
    answer
}

pub fn change(trial: &mut Trial, lent: &mut Lent, tick: usize, owner: usize) -> Answer {
    let before = lent.clone();
    let Lent { plan, parts, list } = lent;
    let answer = counts::change(plan, parts, list, tick, owner);
    let given = [tick as u64, owner as u64];
    lend_all(
        trial.call(Entry::CountsChange, &given, answer),
        &before,
        lent,
    );
    answer
}

fn lend_all<'a>(call: Call<'a>, before: &Lent, after: &Lent) -> Call<'a> {
    let call = lend(call, &before.plan, &after.plan);
    let call = lend(call, &before.parts, &after.parts);
    lend(call, &before.list, &after.list)
}

/// Lends all the numbers, with some behind them that nobody may touch.
fn lend<'a>(call: Call<'a>, before: &[u16], after: &[u16]) -> Call<'a> {
    let [before, after] = [before, after].map(|numbers| [numbers, &[PATTERN; BEHIND]].concat());
    call.writes(before.len() - BEHIND, &before, &after)
}

/// An output that is empty, too short, exact, or longer.
pub fn some_length(rng: &mut Rng, needed: usize) -> usize {
    match rng.between(0, 9) {
        0 => 0,
        1 => needed.saturating_sub(1),
        2 => rng.between(0, needed),
        3..=5 => needed + rng.between(1, 9),
        _ => needed,
    }
}
