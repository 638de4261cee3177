//! The same in both editions: plans, tasks, files and listings.

use second::editions::Edition;
use second::inputs::files::{self, Tables};
use second::inputs::plans::Served;
use second::inputs::{editions, granules, plans, tables};
use second::rng::Rng;
use second::service::Service;
use second::{ticks, Answer};

use crate::file::{compare_read, compare_write, length, there_and_back};
use crate::granules::compare_all;
use crate::seen::{kind, Seen};
use crate::service::compare_check;
use crate::trial::Trial;
use crate::verdict::asked::{compare, without_tasks, Input, Judged};
use crate::{build, listing};

/// A table for the builder: any, or one whose only partition wants all.
fn some_table(rng: &mut Rng, granule: u64, longest: usize) -> Vec<u16> {
    let count = rng.pick(&[1, 1, 3, 6]);
    if rng.one_in(4) {
        let den = rng.between(1, 1000);
        [granule as usize, 1, den]
            .map(|number| number as u16)
            .to_vec()
    } else {
        tables::some_harmonic(rng, granule, count, longest)
    }
}

/// What the library's builder wrote, checked and judged in both editions. A cycle that holds a switch
/// tick has none to spare: in edition 2 only a plan of one run serves.
pub fn built_and_checked(trial: &mut Trial) {
    let mut seen = Seen::default();
    for _ in trial.cases(3000) {
        let rng = &mut trial.rng;
        let longest = rng.pick(&[1, 4, 8, 24, 60]);
        let granule = granules::up_to(rng, longest);
        let parts = some_table(rng, granule, longest);
        let tasks = tables::tasks(rng, 2, parts.len() / 3, 40);
        let (built, out) = build::compare(trial, granule, &parts, 64);
        if built.number != 0 {
            continue;
        }
        let mut input = Input {
            edition: 1,
            granule,
            plan: out[..built.first as usize].to_vec(),
            parts,
            tasks,
        };
        let one_run = input.plan.iter().all(|owner| *owner == 1);
        for (edition, number) in [(1, 0), (2, if one_run { 0 } else { 9 })] {
            input.edition = edition;
            let found = compare_all(trial, &input, 2).map(|answer| answer.number);
            trial.same(&input, found, [number; 3]);
            seen.count(format!("{number} in edition {edition}"));
        }
    }
    let kinds = ["0 in edition 1", "0 in edition 2", "9 in edition 2"];
    seen.share(trial, &kinds, [1, 10]);
}

/// A plan of one partition that has service in edition 2 in every stretch of a cycle, and the cycle.
fn some_stretch(rng: &mut Rng) -> (Vec<u16>, usize) {
    loop {
        let ticks = rng.between(1, 40);
        let longest = rng.pick(&[2, 6, 40]);
        let plan = plans::in_runs_up_to(rng, ticks, 1, longest);
        let m = rng.between(1, ticks);
        if Service::new(Edition::Two, &plan).least(1, m as u32) > 0 {
            return (plan, m);
        }
    }
}

/// Shares of just so many ticks as every stretch of the cycle holds, by each edition, and of a tick
/// more.
pub fn just_enough(trial: &mut Trial) {
    let mut seen = Seen::default();
    for _ in trial.cases(6000) {
        let (plan, m) = some_stretch(&mut trial.rng);
        let least = Edition::BOTH.map(|edition| Service::new(edition, &plan).least(1, m as u32));
        for wanted in [least[0], least[0] + 1, least[1], least[1] + 1] {
            if wanted > m as u64 {
                continue;
            }
            let parts = [m, wanted as usize, m].map(|number| number as u16);
            let numbers = [1, 2].map(|edition| {
                let answer = compare_check(trial, edition, 1, &plan, &parts);
                let short = answer.number == 9;
                trial.same((&plan, parts), short && answer.third < wanted, short);
                answer.number
            });
            let wants = least.map(|least| if wanted > least { 9 } else { 0 });
            trial.same((&plan, parts), numbers, wants);
            seen.count(format!("{numbers:?}"));
        }
    }
    seen.share(trial, &["[0, 0]", "[0, 9]", "[9, 9]"], [1, 5]);
}

const ONLY_IN_1: &str = "passes in edition 1 only";
const LATER: &str = "passes in 2 at a later tick";

/// What is accepted and passes in edition 2 is so in edition 1, at the same tick or before.
pub fn never_easier(trial: &mut Trial) {
    let mut seen = Seen::default();
    for _ in trial.cases(6000) {
        let rng = &mut trial.rng;
        let longest = rng.between(1, 30);
        let mut input = without_tasks(rng, 3, longest);
        let partitions = input.partitions();
        input.tasks = tables::tasks(rng, 3, partitions, 60);
        if rng.one_in(4) {
            plans::damage(rng, &mut input.plan, partitions);
        }
        for place in 1..=3 {
            let [one, two] = [1, 2].map(|edition| {
                input.edition = edition;
                compare(trial, &input, place)
            });
            trial.same((&input, one, two), no_easier(one, two), true);
            note(&mut seen, one, two);
        }
    }
    seen.share(trial, &["pass", "fail", "9"], [1, 4]);
    seen.share(trial, &[ONLY_IN_1, LATER], [1, 20]);
}

/// Whether edition 2 is no easier than edition 1.
fn no_easier(one: Judged, two: Judged) -> bool {
    match (one, two) {
        (_, Judged::Refused(_)) => true,
        (_, Judged::Fail) => !matches!(one, Judged::Refused(_)),
        (Judged::Pass { point, tick }, Judged::Pass { point: p, tick: t }) => {
            point <= p && tick <= t
        }
        (_, Judged::Pass { .. }) => false,
    }
}

/// What edition 2 says, and where edition 1 says something else.
fn note(seen: &mut Seen, one: Judged, two: Judged) {
    let said = match two {
        Judged::Refused(answer) => kind(answer),
        Judged::Fail => "fail".to_string(),
        Judged::Pass { .. } => "pass".to_string(),
    };
    seen.count(said);
    match (one, two) {
        (Judged::Pass { .. }, Judged::Fail) => seen.count(ONLY_IN_1.to_string()),
        (Judged::Pass { tick, .. }, Judged::Pass { tick: later, .. }) if tick < later => {
            seen.count(LATER.to_string());
        }
        _ => {}
    }
}

/// "we must read and write both": the same tables in each, whose files differ in the first number.
pub fn files_there_and_back(trial: &mut Trial) {
    for case in trial.cases(1500) {
        let longest = trial.rng.pick(&[1, 4, 20, 40]);
        let mut tables = match case % 100 {
            0 => files::largest(&mut trial.rng),
            _ => files::tables(&mut trial.rng, longest),
        };
        let [one, two] = [1, 2].map(|edition| {
            tables.edition = edition;
            let bytes = there_and_back(trial, &tables);
            let number = compare_read(trial, &bytes);
            trial.same(&tables, number, 0);
            bytes
        });
        trial.same(&tables, (&one[..2], &two[..2]), (&[0, 1], &[0, 2]));
        trial.same(&tables, &one[2..], &two[2..]);
        tables.edition = trial.rng.pick(&editions::OUTSIDE);
        let (answer, _) = compare_write(trial, &tables, length(&tables));
        trial.same(&tables, answer, Answer::refused(2));
        compare_read(trial, &tables.bytes());
    }
}

/// The number of passes in a listing.
fn passes(text: &str) -> usize {
    text.matches(" pass ").count()
}

/// The listing of a plan that serves in edition 2, and of the same in edition 1.
pub fn listed(trial: &mut Trial) {
    let mut seen = Seen::default();
    for _ in trial.cases(4000) {
        let rng = &mut trial.rng;
        let longest = rng.between(1, 30);
        let Served { plan, parts, .. } = plans::served(rng, Edition::Two, 1, 3, longest);
        let tasks = tables::tasks(rng, 4, parts.len() / 3, 60);
        let mut tables = Tables {
            edition: 0,
            frame: plan.len() as u64,
            parts,
            tasks,
            runs: ticks::to_runs(&plan),
        };
        let [one, two, none] = [1, 2, 3].map(|edition| {
            tables.edition = edition;
            listing::compare(trial, &tables.bytes())
        });
        trial.same(&tables, &none[..], "refused 2\n");
        let lines = [&one, &two].map(|text| text.lines().count());
        trial.same(&tables, lines, [5 + tables.partitions(); 2]);
        let [in_one, in_two] = [passes(&one), passes(&two)];
        trial.same((&tables, in_one, in_two), in_two <= in_one, true);
        seen.count(String::from(if one == two { "alike" } else { "apart" }));
        if in_two < in_one {
            seen.count(String::from("fewer passes"));
        }
    }
    seen.share(trial, &["alike", "apart", "fewer passes"], [1, 10]);
}
