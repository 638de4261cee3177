//! Plans, lists and questions that are refused.

use second::inputs::counts::{self as inputs, Ask};
use second::inputs::{faults, plans};
use second::records::Question;
use second::rng::Rng;
use second::{plan, Answer};

use super::lent::{ask, held_many, small_lent, some_lent, Lent, PATTERN};
use crate::seen::{kind, Seen};
use crate::trial::Trial;

/// One of each that needs a list which agrees; no question at all needs one too.
fn judging(rng: &mut Rng, lent: &Lent) -> [Ask; 4] {
    let [_, one, many, change] = inputs::asks(rng, lent.partitions(), lent.frame());
    [one, many, no_question(rng), change]
}

fn no_question(rng: &mut Rng) -> Ask {
    Ask::HeldMany {
        questions: Vec::new(),
        answers: rng.between(0, 2),
    }
}

/// Any number of the needed part is enough to disagree; the tail has no say.
pub fn each_number_spoilt(trial: &mut Trial) {
    for _ in trial.cases(60) {
        let lent = small_lent(&mut trial.rng);
        let asks = judging(&mut trial.rng, &lent);
        for place in trial.each(0..lent.list.len()) {
            let good = lent.list[place];
            let wanted = if place < lent.needed() { 20 } else { 0 };
            for number in [
                good.wrapping_add(1),
                good.wrapping_sub(1),
                good ^ 256,
                65_535,
            ] {
                for asked in &asks {
                    let mut spoilt = lent.clone();
                    spoilt.list[place] = number;
                    let answer = ask(trial, &mut spoilt, asked);
                    trial.same((&lent, place, number, asked), answer.number, wanted);
                }
            }
        }
    }
}

/// Lets the list disagree with the plan, or only its tail, or be too short; says how.
fn disagree(rng: &mut Rng, lent: &mut Lent) -> &'static str {
    let [needed, frame] = [lent.needed(), lent.frame()];
    match rng.between(0, 5) {
        0 => {
            let partitions = lent.partitions();
            plans::damage(rng, &mut lent.plan, partitions);
            "another plan"
        }
        1 => {
            let tail = rng.between(1, 4);
            lent.list.truncate(needed);
            lent.list.extend(&[0, 1, 65_535, 4][..tail]);
            "another tail"
        }
        2 => {
            lent.list.truncate(needed - 1);
            "one number less"
        }
        _ => {
            inputs::spoil(rng, &mut lent.list[..needed], frame + 1);
            "other counts"
        }
    }
}

pub fn spoilt_lists(trial: &mut Trial) {
    let mut seen = Seen::default();
    for case in trial.cases(6000) {
        let longest = if case % 20 == 0 { 300 } else { 24 };
        let mut lent = some_lent(&mut trial.rng, longest);
        let asks = judging(&mut trial.rng, &lent);
        let how = disagree(&mut trial.rng, &mut lent);
        for asked in &asks {
            let answer = ask(trial, &mut lent.clone(), asked);
            seen.count(format!("{how}: {}", kind(answer)));
        }
    }
    seen.share(trial, &["another tail: 0", "one number less: 12"], [1, 3]);
    seen.share(trial, &["another plan: 20"], [1, 5]);
    seen.share(trial, &["other counts: 20"], [1, 1]);
}

/// The places from 1 of the questions that are wrong.
#[derive(Debug)]
struct Wrong {
    /// No such partition.
    unknown: Vec<u64>,
    /// No such tick, or too long a stretch.
    outside: Vec<u64>,
}

impl Wrong {
    fn of(questions: &[u16], lent: &Lent) -> Wrong {
        let [partitions, frame] = [lent.partitions(), lent.frame()].map(|most| most as u16);
        let places = |wrong: fn(&[u16], u16) -> bool, most: u16| {
            let each = (1..).zip(questions.chunks(3));
            let each = each.filter(|(_, one)| wrong(one, most));
            each.map(|(place, _)| place).collect()
        };
        Wrong {
            unknown: places(|one, most| one[0] == 0 || one[0] > most, partitions),
            outside: places(|one, most| one[1] >= most || one[2] > most, frame),
        }
    }

    /// "lowest number first, then lowest place".
    fn refusal(&self) -> Option<Answer> {
        let lowest = |number, places: &[u64]| {
            let place = *places.first()?;
            Some(Answer::new(number, [0, place, 0, 0]))
        };
        lowest(8, &self.unknown).or(lowest(26, &self.outside))
    }

    fn note(&self, seen: &mut Seen, answer: Answer) {
        let told = kind(answer);
        let alike = if answer.number == 8 {
            &self.unknown
        } else {
            &self.outside
        };
        let earlier = self.outside.iter().any(|&place| place < answer.second);
        for (is, how) in [
            (answer.second > 1, "behind a good one or more"),
            (alike.len() > 1, "of several"),
            (answer.number == 8 && earlier, "behind a 26"),
        ] {
            if is {
                seen.count(format!("{told}, {how}"));
            }
        }
        seen.count(told);
    }
}

/// Several questions are wrong, in both ways.
pub fn the_lowest_question(trial: &mut Trial) {
    let mut seen = Seen::default();
    for _ in trial.cases(12_000) {
        let lent = some_lent(&mut trial.rng, 24);
        let questions = inputs::any_questions(&mut trial.rng, lent.partitions(), lent.frame());
        let answers = questions.len() / 3;
        let answer = held_many(trial, &lent, &questions, answers);
        let wrong = Wrong::of(&questions, &lent);
        let good = Answer::good([answers as u64, 0, 0, 0]);
        let wanted = wrong.refusal().unwrap_or(good);
        trial.same((&lent, &questions), answer, wanted);
        wrong.note(&mut seen, answer);
    }
    seen.share(trial, &["0"], [1, 20]);
    for how in ["behind a good one or more", "of several"] {
        let kinds = ["8 with place 0", "26"].map(|kind| format!("{kind}, {how}"));
        seen.share(trial, &kinds, [1, 20]);
    }
    seen.share(trial, &["8 with place 0, behind a 26"], [1, 20]);
}

/// Faults anywhere in table and plan, and several of them.
pub fn faults(trial: &mut Trial) {
    let mut seen = Seen::default();
    for _ in trial.cases(6000) {
        let rng = &mut trial.rng;
        let mut lent = some_lent(rng, 24);
        let [partitions, frame] = [lent.partitions(), lent.frame()];
        let [one, many, none, change] = judging(rng, &lent);
        for _ in 0..rng.pick(&[0, 1, 2]) {
            faults::partitions(rng, &mut lent.parts, frame);
        }
        for _ in 0..rng.pick(&[0, 1, 2]) {
            faults::plan(rng, &mut lent.plan, partitions);
        }
        for asked in [Ask::Fill, one, many, none, change] {
            let answer = ask(trial, &mut lent.clone(), &asked);
            seen.count(kind(answer));
        }
    }
    seen.share(trial, &["0", "3", "6", "8"], [1, 3]);
}

/// A list that is long enough where the call goes so far.
fn at_a_limit(trial: &mut Trial, ticks: usize, parts: Vec<u16>) {
    let plan = vec![1; ticks];
    let refused = plan::check(1, 1, &plan, &parts).number;
    let mut lent = match refused {
        0 | 9 => Lent::filled(plan, parts, 0),
        _ => Lent {
            plan,
            parts,
            list: vec![PATTERN; 9],
        },
    };
    for asked in inputs::asks(&mut trial.rng, 1, ticks.max(1)) {
        let answer = ask(trial, &mut lent, &asked);
        let wanted = if refused == 9 { 0 } else { refused };
        trial.same((ticks, &lent.parts, &asked), answer.number, wanted);
    }
}

pub fn each_limit(trial: &mut Trial) {
    for ticks in trial.each([0, 1, 2, 4095, 4096, 4097, 65_536, 65_537]) {
        for records in [0, 1, 2, 16, 17] {
            for numbers in [3 * records, 3 * records + 1, 3 * records + 2] {
                let parts = [1, 1, 1].repeat(records + 1)[..numbers].to_vec();
                at_a_limit(trial, ticks, parts);
            }
        }
    }
    for frame in trial.each([1, 2, 4095, 4096]) {
        for cycle in [0, 1, frame - 1, frame, frame + 1, 4097, 65535] {
            at_a_limit(trial, frame.into(), vec![cycle, 1, 1000]);
        }
    }
}

/// Sixteen partitions, 4,096 ticks, and one number more than the 65,552 counts.
fn longest(rng: &mut Rng) -> Lent {
    let plan = plans::scattered(rng, 4096, 16);
    Lent::filled(plan, [4096, 1, 16].repeat(16), 1)
}

/// The first and the last number of the longest list and of its first row, and its tail.
pub fn the_longest_list(trial: &mut Trial) {
    let lent = longest(&mut trial.rng);
    for (place, wanted) in trial.each([(0, 20), (4096, 20), (65_551, 20), (65_552, 0)]) {
        for asked in judging(&mut trial.rng, &lent) {
            let mut spoilt = lent.clone();
            spoilt.list[place] ^= 1;
            let answer = ask(trial, &mut spoilt, &asked);
            trial.same((place, &asked), answer.number, wanted);
        }
    }
    let asks = judging(&mut trial.rng, &lent);
    for asked in trial.each([&[Ask::Fill], &asks[..]].concat()) {
        let mut short = lent.clone();
        short.list.truncate(65_551);
        let answer = ask(trial, &mut short, &asked);
        trial.same(&asked, answer.number, 12);
    }
}

/// What lies just outside the longest frame and the largest table.
pub fn outside_the_longest_frame(trial: &mut Trial) {
    let mut lent = longest(&mut trial.rng);
    let held = |partition, start, length| {
        Ask::Held(Question {
            partition,
            start,
            length,
        })
    };
    for (asked, wanted) in trial.each([
        (held(17, 4096, 0), "8 with place 0"),
        (held(16, 4096, 0), "26"),
        (held(16, 4095, 4097), "26"),
        (Ask::Change { tick: 0, owner: 17 }, "8 with place 0"),
        (
            Ask::Change {
                tick: 4096,
                owner: 16,
            },
            "26",
        ),
    ]) {
        let answer = ask(trial, &mut lent, &asked);
        trial.same(&asked, kind(answer), wanted.to_string());
    }
}
