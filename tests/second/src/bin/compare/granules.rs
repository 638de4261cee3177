//! Granules in every call that takes one: the library against the second program. The other trials
//! of these calls draw granules too.

use second::inputs::plans::Served;
use second::inputs::{editions, faults, granules, plans, tables};
use second::limits::GRANULE;
use second::page::ROW;
use second::rng::Rng;
use second::Answer;

use crate::build;
use crate::page::{self, asked::points};
use crate::seen::{kind, Seen};
use crate::service::compare_check;
use crate::trial::{Named, Trial};
use crate::verdict::asked::{ask, Input, PLAIN, VERDICT};

pub const TRIALS: &[Named] = &[
    ("granules, build with each", build_with_each),
    ("granules, a plan with each other", a_plan_with_each_other),
    ("granules, any table with each", any_table_with_each),
    ("granules, 21 and a table", refused_beside_a_table),
    ("granules, 21 and a plan", refused_beside_a_plan),
    ("granules, more than a cycle", more_than_a_cycle),
    (
        "granules, behind one that falls short",
        behind_one_that_falls_short,
    ),
    (
        "granules, the frame and one tick more",
        the_frame_and_one_tick_more,
    ),
];

fn good(granule: u64) -> bool {
    (1..=GRANULE).contains(&granule)
}

/// The checker and both engines; and the page, which says what the verdict does.
pub fn compare_all(trial: &mut Trial, input: &Input, place: usize) -> [Answer; 3] {
    let Input {
        edition,
        granule,
        plan,
        parts,
        ..
    } = input;
    let checked = compare_check(trial, *edition, *granule, plan, parts);
    let [verdict, plain] = [VERDICT, PLAIN].map(|engine| ask(trial, engine, input, place));
    let numbers = ROW * points(input, place);
    let (page, _) = page::asked::compare(trial, input, place, numbers);
    let [found, wanted] = [page, verdict].map(|answer| (answer.number, answer.first));
    trial.same((input, place, "page"), found, wanted);
    [checked, verdict, plain]
}

fn some_table(rng: &mut Rng, granule: u64) -> Vec<u16> {
    let longest = rng.pick(&[8, 24, 60, 100]);
    tables::some_harmonic(rng, granule, 6, longest)
}

/// Tables that are full with one granule, with every other. A larger multiple is never less: where
/// one granule is refused for want of ticks, so are its multiples.
fn build_with_each(trial: &mut Trial) {
    let mut seen = Seen::default();
    for _ in trial.cases(600) {
        let granule = granules::good(&mut trial.rng);
        let mut parts = some_table(&mut trial.rng, granule);
        if trial.rng.one_in(6) {
            faults::partitions(&mut trial.rng, &mut parts, 4096);
        }
        let frame = parts.chunks(3).map(|record| record[0]).max();
        let frame = usize::from(frame.unwrap_or(0));
        let mut refused = Vec::new();
        for granule in granules::all() {
            let ticks = frame.saturating_sub(usize::from(trial.rng.one_in(8)));
            let (answer, _) = build::compare(trial, granule, &parts, ticks);
            let divided = |one: &u64| granule.is_multiple_of(*one);
            if good(granule) && refused.iter().any(divided) {
                trial.same((granule, &parts), answer.number, 11);
            }
            if answer.number == 11 {
                refused.push(granule);
            }
            seen.count(kind(answer));
        }
    }
    seen.share(trial, &["0", "11", "21"], [1, 1]);
    seen.share(trial, &["12"], [1, 10]);
}

/// A plan that is built with one granule, by the checker and the engines with every other.
fn a_plan_with_each_other(trial: &mut Trial) {
    let mut seen = Seen::default();
    for _ in trial.cases(600) {
        let rng = &mut trial.rng;
        let longest = rng.pick(&[8, 24, 60]);
        let edition = editions::good(rng);
        let granule = granules::up_to(rng, longest);
        let served = plans::served(rng, edition, granule, 4, longest);
        let mut input = Input::from(served);
        input.tasks = tables::tasks(rng, 2, input.partitions(), 40);
        for other in granules::each() {
            input.granule = other;
            let [checked, verdict, plain] = compare_all(trial, &input, 2);
            let numbers = [verdict.number, plain.number];
            trial.same((&input, granule), numbers, [checked.number; 2]);
            // Where a multiple of it serves, so does the granule.
            if good(other) && granule.is_multiple_of(other) {
                trial.same((&input, granule), checked.number, 0);
            }
            let whose = if other == granule {
                "its own"
            } else {
                "another"
            };
            seen.count(format!("{} with {whose}", kind(checked)));
        }
    }
    let kinds = [
        "0 with its own",
        "0 with another",
        "9 with another",
        "21 with another",
    ];
    seen.share(trial, &kinds, [1, 2]);
}

/// Tables and plans that don't go together, small and damaged.
fn any_table_with_each(trial: &mut Trial) {
    let mut seen = Seen::default();
    for _ in trial.cases(500) {
        let rng = &mut trial.rng;
        let frame = rng.between(1, 40);
        let count = rng.between(1, 3);
        let mut input = Input::from(Served {
            edition: editions::good(rng),
            granule: 1,
            plan: plans::in_runs_up_to(rng, frame, count, 30),
            parts: tables::partitions(rng, count, frame),
        });
        input.tasks = tables::tasks(rng, 2, count, 40);
        if rng.one_in(4) {
            faults::partitions(rng, &mut input.parts, frame);
        }
        if rng.one_in(4) {
            faults::plan(rng, &mut input.plan, count);
        }
        for granule in granules::all() {
            input.granule = granule;
            let [checked, ..] = compare_all(trial, &input, 1);
            seen.count(kind(checked));
        }
    }
    seen.share(trial, &["3", "6", "8", "9", "21"], [1, 2]);
}

/// "21, after 3": what is answered where a good granule gets the number.
fn with(granule: u64, number: u64) -> u64 {
    if number == 3 || good(granule) {
        number
    } else {
        21
    }
}

/// Each of the builder's refusals, and a plan, with every granule. The output stays as it was.
fn refused_beside_a_table(trial: &mut Trial) {
    let tables: [(&[u16], usize, u64); 12] = [
        (&[], 16, 3),
        (&[16, 1], 16, 3),
        (&[0, 0, 0, 0], 16, 3),
        (&[0; 51], 0, 3),
        (&[0, 1, 16], 16, 6),
        (&[16, 1, 16, 4097, 1, 16], 0, 6),
        (&[16, 17, 16, 15, 1, 1], 16, 6),
        (&[16, 1, 16, 24, 1, 24], 24, 10),
        (&[15, 1, 1, 16, 1, 1], 0, 10),
        (&[16, 1, 1, 16, 1, 1], 0, 11),
        (&[16, 1, 16], 15, 12),
        (&[16, 1, 16], 16, 0),
    ];
    for (parts, ticks, number) in trial.each(tables) {
        for granule in granules::all() {
            let (answer, _) = build::compare(trial, granule, parts, ticks);
            let wanted = with(granule, number);
            trial.same((granule, parts, ticks), answer.number, wanted);
        }
    }
}

/// A plan of one run that serves with every granule, and a task that passes, in both editions.
pub fn all_good() -> Input {
    Input {
        edition: 1,
        granule: 1,
        plan: vec![1; 16],
        parts: vec![16, 1, 16],
        tasks: vec![1, 1, 16, 16],
    }
}

/// The kind of an answer, whether the checker can give it for this, and how to bring it about.
pub type Fault = (&'static str, bool, fn(&mut Input, &mut usize));

/// In the order of the refusals. The later ones are put in first, so that none undoes another.
const FAULTS: [Fault; 9] = [
    ("3", true, |input, _| input.parts.push(1)),
    ("3", true, |input, _| input.plan.clear()),
    ("3", false, |input, _| input.tasks.push(1)),
    ("6", true, |input, _| input.parts[0] = 17),
    ("6", true, |input, _| input.parts[1] = 0),
    ("7", false, |input, _| input.tasks[1] = 0),
    ("7 with place 0", false, |_, place| *place = usize::MAX),
    ("8", true, |input, _| input.plan[15] = 2),
    ("9", true, |input, _| {
        input.parts[2] = 1;
        input.plan[0] = 0;
    }),
];

/// The kind of the first fault, with "21, after 3".
pub fn first<'a>(granule: u64, mut faults: impl Iterator<Item = &'a Fault>) -> &'static str {
    match faults.next().map_or("0", |(kind, ..)| kind) {
        "3" => "3",
        kind if good(granule) => kind,
        _ => "21",
    }
}

/// No fault, each one, and every two.
pub fn up_to_two() -> Vec<Vec<Fault>> {
    let mut faults = vec![Vec::new()];
    for one in 0..FAULTS.len() {
        faults.push(vec![FAULTS[one]]);
        let later = FAULTS[one + 1..].iter();
        faults.extend(later.map(|two| vec![FAULTS[one], *two]));
    }
    faults
}

fn refused_beside_a_plan(trial: &mut Trial) {
    for faults in trial.each(up_to_two()) {
        let (mut input, mut place) = (all_good(), 1);
        for (_, _, put) in faults.iter().rev() {
            put(&mut input, &mut place);
        }
        for granule in granules::all() {
            input.granule = granule;
            input.edition = editions::good(&mut trial.rng).number();
            let [checked, verdict, plain] = compare_all(trial, &input, place).map(kind);
            let wanted = first(granule, faults.iter());
            trial.same((&input, place), [&verdict[..], &plain], [wanted; 2]);
            let of_the_plan = faults.iter().filter(|(_, checked, _)| *checked);
            trial.same(&input, &checked[..], first(granule, of_the_plan));
        }
    }
}

/// Every tick of the plan is the partition's, and none is enough: as many as the cycle has are
/// held at start 0. Where the cycle is a multiple of the granule, all of them are just enough.
fn more_than_a_cycle(trial: &mut Trial) {
    for granule in trial.each(2..=GRANULE) {
        for m in 1..=40 {
            let below = m - m % granule;
            let wanted = if below == m { m } else { below + granule };
            for num in [below + 1, m].map(|num| num.min(m)) {
                let parts = [m, num, m].map(|number| number as u16);
                let (built, _) = build::compare(trial, granule, &parts, m as usize);
                let number = if wanted > m { 11 } else { 0 };
                trial.same((granule, parts), built.number, number);
                let input = Input {
                    edition: editions::good(&mut trial.rng).number(),
                    granule,
                    plan: vec![1; m as usize + num as usize % 3],
                    parts: parts.to_vec(),
                    tasks: vec![1, 1, 1, 1],
                };
                let refusal = (wanted > m).then(|| Answer::new(9, [1, 0, m, wanted]));
                served_or(trial, &input, refusal);
            }
        }
    }
}

/// Checker and engines accept the plan, or all refuse it so.
fn served_or(trial: &mut Trial, input: &Input, refusal: Option<Answer>) {
    let found = compare_all(trial, input, 1);
    match refusal {
        Some(refusal) => trial.same(input, found, [refusal; 3]),
        None => trial.same(input, found.map(|answer| answer.number), [0; 3]),
    }
}

/// The first half of the plan and the second begin with a granule of one partition, from which the
/// last tick of all may be missing; the rest is of another, which wants more than its cycle m.
fn of_two(granule: u64, m: u64, owners: [u16; 2], missing: bool) -> Input {
    let g = granule as usize;
    let half = owners.map(|owner| vec![owner; g]).concat();
    let mut plan = half.repeat(2);
    if missing {
        plan[3 * g - 1] = 0;
    }
    let mut records = [[2 * granule, 1, 1000], [m, 1, 1]];
    if owners == [2, 1] {
        records.reverse();
    }
    let numbers = records.concat();
    Input {
        edition: 1,
        granule,
        plan,
        parts: numbers.iter().map(|&number| number as u16).collect(),
        tasks: vec![1, 1, 1, 1],
    }
}

/// The stretch from tick g on is the first that lacks the missing tick, and the first m ticks hold
/// none of the partition that wants more than its cycle.
fn behind_one_that_falls_short(trial: &mut Trial) {
    for granule in trial.each(2..=GRANULE) {
        for m in 1..granule {
            for (owners, missing, refusal) in [
                ([1, 2], false, [2, 0, 0, granule]),
                ([1, 2], true, [1, granule, granule - 1, granule]),
                ([2, 1], false, [1, 0, 0, granule]),
                ([2, 1], true, [1, 0, 0, granule]),
            ] {
                let input = of_two(granule, m, owners, missing);
                served_or(trial, &input, Some(Answer::new(9, refusal)));
            }
        }
    }
}

/// Partitions that want a granule each, in a frame of just so many ticks, in one that is a tick
/// longer, and in one that is a tick shorter.
fn the_frame_and_one_tick_more(trial: &mut Trial) {
    for granule in trial.each(1..=GRANULE) {
        for count in 1..=16 {
            let sum = granule as usize * count;
            for (frame, number) in [(sum - 1, 11), (sum, 0), (sum + 1, 0)] {
                let parts = [frame as u16, 1, 1000].repeat(count);
                a_frame(trial, granule, &parts, number);
            }
        }
    }
    // 256 ticks each, which are 4,096 together.
    for granule in trial.each([1, 2, 4, 8, 16]) {
        for (frame, number) in [(4095, 11), (4096, 0)] {
            a_frame(trial, granule, &[frame, 1, 16].repeat(16), number);
        }
    }
}

/// Partitions of one cycle: outputs that are a tick short, exact, and a tick longer.
fn a_frame(trial: &mut Trial, granule: u64, parts: &[u16], number: u64) {
    let frame = usize::from(parts[0]);
    if frame == 0 {
        return;
    }
    for (ticks, short) in [(frame - 1, 12), (frame, 0), (frame + 1, 0)] {
        let (answer, _) = build::compare(trial, granule, parts, ticks);
        let wanted = if number == 0 { short } else { number };
        trial.same((granule, parts, ticks), answer.number, wanted);
    }
}
