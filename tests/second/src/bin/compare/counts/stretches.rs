//! Stretches asked for, one by one and many at once.

use second::inputs::counts as inputs;
use second::records::Question;
use second::Answer;

use super::lent::{held, held_many, small_lent, some_length, some_lent, Lent};
use crate::seen::{kind, Seen};
use crate::trial::Trial;

/// Notes the answer, and of a good one how the stretch lies in the frame.
fn note_held(seen: &mut Seen, lent: &Lent, question: Question, answer: Answer) {
    seen.count(kind(answer));
    let frame = lent.frame();
    let Question { start, length, .. } = question;
    if answer.number != 0 {
        let widest = question.partition.max(start).max(length);
        if widest > 65_535 {
            seen.count(kind(answer) + ", past 16 bits");
        }
        return;
    }
    for (lies, how) in [
        (length == 0, "no tick"),
        (length == frame, "the whole frame"),
        (start + length == frame, "up to the frame's end"),
        (start + length > frame, "across the frame's end"),
        (start > 0 && start + length < frame, "within the frame"),
        (answer.first > 0, "some held"),
    ] {
        if lies {
            seen.count(how.to_string());
        }
    }
}

const STRETCHES: [&str; 6] = [
    "no tick",
    "the whole frame",
    "up to the frame's end",
    "across the frame's end",
    "within the frame",
    "some held",
];

/// All partitions, starts and lengths of small plans, and those beside them.
pub fn every_stretch(trial: &mut Trial) {
    let mut seen = Seen::default();
    for _ in trial.cases(120) {
        let lent = small_lent(&mut trial.rng);
        for partition in trial.each(0..=lent.partitions() + 1) {
            for start in 0..=lent.frame() + 1 {
                for length in 0..=lent.frame() + 1 {
                    let question = Question {
                        partition,
                        start,
                        length,
                    };
                    let answer = held(trial, &lent, question);
                    note_held(&mut seen, &lent, question, answer);
                }
            }
        }
    }
    seen.share(trial, &STRETCHES, [1, 1]);
    seen.share(trial, &["0", "8 with place 0", "26"], [2, 1]);
}

pub fn any_stretch(trial: &mut Trial) {
    let mut seen = Seen::default();
    for case in trial.cases(15_000) {
        let rng = &mut trial.rng;
        let longest = if case % 20 == 0 { 300 } else { 40 };
        let lent = some_lent(rng, longest);
        let question = inputs::any_question(rng, lent.partitions(), lent.frame());
        let answer = held(trial, &lent, question);
        note_held(&mut seen, &lent, question, answer);
    }
    seen.share(trial, &STRETCHES, [1, 25]);
    let refused = ["8 with place 0", "26"];
    seen.share(trial, &refused, [1, 10]);
    let wide = refused.map(|kind| kind.to_string() + ", past 16 bits");
    seen.share(trial, &wide, [1, 20]);
}

/// Questions that are good, answers that may be too few, numbers that may be no whole questions.
pub fn many_stretches(trial: &mut Trial) {
    let mut seen = Seen::default();
    for case in trial.cases(12_000) {
        let rng = &mut trial.rng;
        let longest = if case % 20 == 0 { 300 } else { 30 };
        let lent = some_lent(rng, longest);
        let count = rng.pick(&[0, 1, 2, 3, 8, 40]);
        let mut questions = inputs::questions(rng, count, lent.partitions(), lent.frame());
        let answers = some_length(rng, count);
        if rng.one_in(6) {
            let more = rng.between(1, 2);
            questions.extend(&[1, 0][..more]);
        }
        let answer = held_many(trial, &lent, &questions, answers);
        let longer = if answers > count { ", longer" } else { "" };
        seen.count(kind(answer) + longer);
        if questions.is_empty() {
            seen.count(kind(answer) + ", no question");
        }
    }
    let good = ["0", "0, longer", "0, no question"];
    seen.share(trial, &good, [1, 12]);
    seen.share(trial, &["3", "12"], [1, 12]);
}

/// Counts and places of questions that need more than 16 bits.
pub fn more_than_16_bits(trial: &mut Trial) {
    let lent = Lent::filled(vec![1, 0], vec![2, 1, 2], 0);
    let many = [1, 1, 2].repeat(70_000);
    let good = held_many(trial, &lent, &many, 70_000);
    trial.same("70,000 questions", good, Answer::good([70_000, 0, 0, 0]));
    // In 16 bits 65,537 questions are one.
    let few = held_many(trial, &lent, &many[..3 * 65_537], 1);
    trial.same("one answer", few.number, 12);
    for place in trial.each([65_535, 65_536, 65_537, 70_000]) {
        for (at, number) in [(0, 8), (1, 26), (2, 26)] {
            let mut questions = many.clone();
            questions[3 * (place - 1) + at] = 3;
            let answer = held_many(trial, &lent, &questions, 70_000);
            let wanted = Answer::new(number, [0, place as u64, 0, 0]);
            trial.same((place, at), answer, wanted);
        }
    }
}
