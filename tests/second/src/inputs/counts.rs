//! Running counts: what to ask for, within the plan and outside of it, and lists that disagree.

use crate::records::Question;
use crate::rng::Rng;

/// What is asked of plan and list.
#[derive(Clone, Debug)]
pub enum Ask {
    Fill,
    Held(Question),
    HeldMany {
        /// Three numbers each.
        questions: Vec<u16>,
        /// How many answers are lent.
        answers: usize,
    },
    Change {
        tick: usize,
        owner: usize,
    },
}

/// One of each that lies within the plan.
pub fn asks(rng: &mut Rng, partitions: usize, frame: usize) -> [Ask; 4] {
    let count = rng.between(1, 5);
    [
        Ask::Fill,
        Ask::Held(question(rng, partitions, frame)),
        Ask::HeldMany {
            questions: questions(rng, count, partitions, frame),
            answers: count + rng.pick(&[0, 0, 1, 3]),
        },
        Ask::Change {
            tick: rng.between(0, frame - 1),
            owner: rng.between(0, partitions),
        },
    ]
}

/// A stretch of the plan: any, up to the frame's end and a tick more, all of it, none of it.
pub fn question(rng: &mut Rng, partitions: usize, frame: usize) -> Question {
    let partition = rng.between(1, partitions);
    let start = match rng.between(0, 4) {
        0 => 0,
        1 => frame - 1,
        _ => rng.between(0, frame - 1),
    };
    let to_the_end = frame - start;
    let length = match rng.between(0, 9) {
        0 => 0,
        1 => frame,
        2 => to_the_end,
        3 => (to_the_end + 1).min(frame),
        _ => rng.between(0, frame),
    };
    Question {
        partition,
        start,
        length,
    }
}

pub fn questions(rng: &mut Rng, count: usize, partitions: usize, frame: usize) -> Vec<u16> {
    let mut numbers = Vec::new();
    for _ in 0..count {
        let one = question(rng, partitions, frame);
        numbers.extend([one.partition, one.start, one.length].map(|number| number as u16));
    }
    numbers
}

/// A number past `most` that has 16 bits.
fn above(rng: &mut Rng, most: usize) -> u16 {
    let any = rng.between(most + 1, 65_535);
    rng.pick(&[most + 1, most + 2, any, 65_535]) as u16
}

/// A number of more than 16 bits, most often one whose lower bits are good.
fn far_above(rng: &mut Rng, most: usize) -> usize {
    let good = rng.between(0, most);
    let wide = [
        good + (1 << 16),
        good + (1 << 32),
        good + (1 << 48),
        good + (1 << 63),
        usize::MAX,
        usize::MAX - good,
    ];
    rng.pick(&wide)
}

/// A number past `most`, of any width.
fn outside(rng: &mut Rng, most: usize) -> usize {
    if rng.one_in(2) {
        far_above(rng, most)
    } else {
        above(rng, most).into()
    }
}

/// Partition 0 is none.
fn unknown(rng: &mut Rng, question: &mut Question, partitions: usize) {
    question.partition = match rng.between(0, 3) {
        0 => 0,
        _ => outside(rng, partitions),
    };
}

fn past_the_frame(rng: &mut Rng, question: &mut Question, frame: usize) {
    if rng.one_in(2) {
        question.start = outside(rng, frame - 1);
    } else {
        question.length = outside(rng, frame);
    }
}

/// One of the questions, which must not be none, asks for no partition of the table.
fn unknown_among(rng: &mut Rng, questions: &mut [u16], partitions: usize) {
    let one = 3 * rng.between(0, questions.len() / 3 - 1);
    questions[one] = match rng.between(0, 3) {
        0 => 0,
        _ => above(rng, partitions),
    };
}

/// One of the questions asks for a stretch that starts outside the frame, or is too long.
fn past_the_frame_among(rng: &mut Rng, questions: &mut [u16], frame: usize) {
    let one = 3 * rng.between(0, questions.len() / 3 - 1);
    if rng.one_in(2) {
        questions[one + 1] = above(rng, frame - 1);
    } else {
        questions[one + 2] = above(rng, frame);
    }
}

/// Asks for a partition or owner outside the table. "owner 0 is good".
pub fn leave_the_table(rng: &mut Rng, ask: &mut Ask, partitions: usize) {
    match ask {
        Ask::Fill => {}
        Ask::Held(question) => unknown(rng, question, partitions),
        Ask::HeldMany { questions, .. } => unknown_among(rng, questions, partitions),
        Ask::Change { owner, .. } => *owner = outside(rng, partitions),
    }
}

/// Asks for a tick outside the plan, or for a stretch that is too long.
pub fn leave_the_frame(rng: &mut Rng, ask: &mut Ask, frame: usize) {
    match ask {
        Ask::Fill => {}
        Ask::Held(question) => past_the_frame(rng, question, frame),
        Ask::HeldMany { questions, .. } => past_the_frame_among(rng, questions, frame),
        Ask::Change { tick, .. } => *tick = outside(rng, frame - 1),
    }
}

/// A question that may lie outside.
pub fn any_question(rng: &mut Rng, partitions: usize, frame: usize) -> Question {
    let mut question = question(rng, partitions, frame);
    if rng.one_in(5) {
        unknown(rng, &mut question, partitions);
    }
    if rng.one_in(4) {
        past_the_frame(rng, &mut question, frame);
    }
    question
}

/// Tick and owner, which may lie outside.
pub fn any_change(rng: &mut Rng, partitions: usize, frame: usize) -> [usize; 2] {
    let [tick, owner] = [rng.between(0, frame - 1), rng.between(0, partitions)];
    let [far_tick, far_owner] = [frame - 1, partitions].map(|most| outside(rng, most));
    [
        rng.pick(&[tick, tick, tick, far_tick]),
        rng.pick(&[owner, owner, owner, owner, far_owner]),
    ]
}

/// At least one question, of which several may lie outside.
pub fn any_questions(rng: &mut Rng, partitions: usize, frame: usize) -> Vec<u16> {
    let count = rng.between(1, 12);
    let mut questions = questions(rng, count, partitions, frame);
    for _ in 0..rng.pick(&[0, 0, 1, 2, 3]) {
        unknown_among(rng, &mut questions, partitions);
    }
    for _ in 0..rng.pick(&[0, 1, 2, 3]) {
        past_the_frame_among(rng, &mut questions, frame);
    }
    questions
}

/// Lets the counts disagree with their plan, in most cases. `row` is how many a partition has.
pub fn spoil(rng: &mut Rng, counts: &mut [u16], row: usize) {
    let rows = counts.len() / row;
    let one = &mut counts[some_place(rng, rows, row)];
    match rng.between(0, 9) {
        0 | 1 => *one = one.wrapping_add(1),
        2 | 3 => *one = one.wrapping_sub(1),
        4 => *one = rng.pick(&[0, 1, 255, 256, 32_768, 65_535]),
        5 => exchange_rows(rng, counts, row),
        6 => up_to_the_tick(rng, counts, row),
        7 => tick_by_tick(counts, row),
        8 => one_more_from_here_on(rng, counts, row),
        _ => counts.fill(0),
    }
}

/// Any number, or the first or the last of a row.
fn some_place(rng: &mut Rng, rows: usize, row: usize) -> usize {
    let any = rng.between(0, row - 1);
    row * rng.between(0, rows - 1) + rng.pick(&[0, row - 1, any, any])
}

fn exchange_rows(rng: &mut Rng, counts: &mut [u16], row: usize) {
    let rows = counts.len() / row;
    let [one, other] = [0; 2].map(|_: usize| rng.between(0, rows - 1));
    for place in 0..row {
        counts.swap(one * row + place, other * row + place);
    }
}

/// A row that counts the tick itself too.
fn up_to_the_tick(rng: &mut Rng, counts: &mut [u16], row: usize) {
    let at = row * rng.between(0, counts.len() / row - 1);
    counts.copy_within(at + 1..at + row, at);
}

/// A row, or the later part of one, as if an earlier tick had had another owner.
fn one_more_from_here_on(rng: &mut Rng, counts: &mut [u16], row: usize) {
    let at = some_place(rng, counts.len() / row, row);
    let more = rng.pick(&[1, 65_535]);
    for count in &mut counts[at..(at / row + 1) * row] {
        *count = count.wrapping_add(more);
    }
}

/// All partitions' counts before a tick one behind the other.
fn tick_by_tick(counts: &mut [u16], row: usize) {
    let rows = counts.len() / row;
    let by_partition = counts.to_vec();
    for (place, count) in counts.iter_mut().enumerate() {
        *count = by_partition[place % rows * row + place / rows];
    }
}
