//! Several faults in one call: which refusal comes first.

use second::inputs::counts::{self as inputs, Ask};
use second::rng::Rng;

use super::lent::{ask, some_lent, Lent};
use crate::seen::kind;
use crate::trial::Trial;

/// A call, and the plan's numbers before any fault.
struct Input {
    lent: Lent,
    asked: Ask,
    partitions: usize,
    frame: usize,
}

/// A refusal, and what leads to it.
type Fault = (&'static str, fn(&mut Rng, &mut Input));

/// The refusals in their order.
const FAULTS: [Fault; 7] = [
    ("3", a_count),
    ("6", a_record),
    ("8", a_tick),
    ("8 with place 0", |rng, input| {
        inputs::leave_the_table(rng, &mut input.asked, input.partitions);
    }),
    ("12", a_length),
    ("20", a_number),
    ("26", |rng, input| {
        inputs::leave_the_frame(rng, &mut input.asked, input.frame);
    }),
];

fn a_count(rng: &mut Rng, input: &mut Input) {
    let Lent { plan, parts, .. } = &mut input.lent;
    match (rng.between(0, 8), &mut input.asked) {
        (0, _) => parts.push(1),
        (1, _) => drop(parts.pop()),
        (2, _) => *parts = parts.repeat(17)[..3 * 17].to_vec(),
        (3, _) => plan.clear(),
        (4, _) => plan.resize(4097, 0),
        (_, Ask::HeldMany { questions, .. }) if rng.one_in(2) => questions.push(1),
        (_, Ask::HeldMany { questions, .. }) => drop(questions.pop()),
        _ => parts.push(1),
    }
}

fn a_record(rng: &mut Rng, input: &mut Input) {
    let record = 3 * rng.between(0, input.partitions - 1);
    let [cycle, num, den] = [0, 1, 2].map(|number| record + number);
    let parts = &mut input.lent.parts;
    match rng.between(0, 4) {
        0 => parts[cycle] = 0,
        1 => parts[cycle] = input.frame as u16 + 1,
        2 => parts[num] = 0,
        3 => parts[num] = parts[den] + 1,
        _ => parts[den] = 1001,
    }
}

fn a_tick(rng: &mut Rng, input: &mut Input) {
    let tick = rng.between(0, input.frame - 1);
    input.lent.plan[tick] = rng.pick(&[input.partitions as u16 + 1, 18, 256, 65_535]);
}

fn a_number(rng: &mut Rng, input: &mut Input) {
    let place = rng.between(0, input.partitions * (input.frame + 1) - 1);
    let number = &mut input.lent.list[place];
    *number = number.wrapping_add(rng.pick(&[1, 65_535]));
}

/// A list that is too short, by one number or all, or too few answers.
fn a_length(rng: &mut Rng, input: &mut Input) {
    let needed = input.partitions * (input.frame + 1);
    let less = rng.pick(&[0, needed - 1, needed - 1]);
    match &mut input.asked {
        Ask::HeldMany { questions, answers } if rng.one_in(2) => *answers = questions.len() / 3 - 1,
        _ => input.lent.list.truncate(less),
    }
}

/// Of filling only what it knows.
fn knows(asked: &Ask, number: &str) -> bool {
    match asked {
        Ask::Fill => ["3", "6", "8", "12"].contains(&number),
        _ => true,
    }
}

/// Every set of faults in one call: the first of the order is told.
pub fn faults_in_order(trial: &mut Trial) {
    for case in trial.cases(2560) {
        let lent = some_lent(&mut trial.rng, 12);
        let [partitions, frame] = [lent.partitions(), lent.frame()];
        let chosen = (0..).zip(FAULTS).filter(|(bit, _)| case >> bit & 1 == 1);
        let chosen: Vec<_> = chosen.map(|(_, fault)| fault).collect();
        for asked in inputs::asks(&mut trial.rng, partitions, frame) {
            let first = chosen.iter().find(|(number, _)| knows(&asked, number));
            let wanted = first.map_or("0", |(number, _)| *number).to_string();
            let mut input = Input {
                lent: lent.clone(),
                asked,
                partitions,
                frame,
            };
            // A fault of the later ones counts on tables that the earlier ones may cut.
            for (_, fault) in chosen.iter().rev() {
                fault(&mut trial.rng, &mut input);
            }
            let answer = ask(trial, &mut input.lent, &input.asked);
            trial.same((&input.lent, &input.asked), kind(answer), wanted);
        }
    }
}
