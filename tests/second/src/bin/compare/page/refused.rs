//! What the page refuses: as the verdict does, and then lists that are too short.

use second::page::ROW;
use second::Answer;

use super::asked::{compare, judge, page_in, points, Paged, LONGER};
use crate::granules::{all_good, first, up_to_two};
use crate::seen::{kind, Seen};
use crate::trial::Trial;
use crate::verdict::asked::{faulty, Input};

pub fn faults(trial: &mut Trial) {
    let mut seen = Seen::default();
    for _ in trial.cases(50_000) {
        let (input, place) = faulty(&mut trial.rng);
        judge(trial, &input, place, &mut seen);
    }
    let refused = ["3", "6", "7", "7 with place 0", "8", "9"];
    seen.share(trial, &refused, [1, 50]);
    seen.share(trial, &["2", "21"], [1, 100]);
    seen.share(trial, &["pass", "fail"], [1, 50]);
    seen.share(trial, &["12", LONGER], [1, 300]);
}

/// A task that passes; and one behind a task that takes all time, so that it fails, at its one point.
const EACH: [(&[u16], &str); 2] = [
    (&[1, 1, 16, 16], "0"),
    (&[1, 16, 16, 16, 1, 1, 16, 16], "12"),
];

/// None of the verdict's refusals, each one and every two, with good editions and granules and others,
/// and beside a list that is too short: 12 comes last, and of a failing task alone.
pub fn in_their_order(trial: &mut Trial) {
    for faults in trial.each(up_to_two()) {
        for (tasks, short) in EACH {
            let mut input = all_good();
            input.tasks = tasks.to_vec();
            let mut place = input.listed();
            for (_, _, put) in faults.iter().rev() {
                put(&mut input, &mut place);
            }
            for edition in [1, 2, 0, 3, 65_537, 1 << 32] {
                for granule in [1, 16, 0, 17, 65_537] {
                    (input.edition, input.granule) = (edition, granule);
                    for numbers in [0, ROW - 1, ROW, ROW + 3] {
                        let (answer, _) = compare(trial, &input, place, numbers);
                        let wanted = match first(granule, faults.iter()) {
                            _ if edition != 1 && edition != 2 => "2",
                            "0" if numbers < ROW => short,
                            other => other,
                        };
                        trial.same((&input, place, numbers), &kind(answer)[..], wanted);
                    }
                }
            }
        }
    }
}

/// Failing tasks with one point, two and several, and one that passes.
fn by_hand() -> [(Input, Option<u64>); 4] {
    let input = |tasks: &[[u16; 4]]| Input {
        edition: 1,
        granule: 1,
        plan: vec![1, 2, 2, 2, 1, 3, 0, 0],
        parts: vec![4, 1, 4, 8, 3, 8, 8, 1, 100],
        tasks: tasks.concat(),
    };
    let first = [2, 2, 8, 16];
    [
        (input(&[first, [2, 2, 13, 32]]), None),
        (input(&[first, [2, 5, 17, 32]]), None),
        (input(&[[2, 1, 2, 2], [2, 1, 3, 3], [2, 9, 14, 32]]), None),
        (input(&[first, [2, 2, 14, 32]]), Some(14)),
    ]
}

/// None, all short ones, the exact one, and longer ones.
pub fn every_length_of_the_list(trial: &mut Trial) {
    for (input, pass) in trial.each(by_hand()) {
        let place = input.listed();
        let needed = ROW * points(&input, place);
        for numbers in 0..=needed + 2 * ROW + 1 {
            // What stands in the list before is drawn.
            for _ in 0..4 {
                let paged = page_in(trial, &input, place, numbers);
                let right = match (&paged, pass) {
                    (Paged::Pass(point), Some(wanted)) => *point == wanted,
                    (Paged::Refused(answer), None) => {
                        numbers < needed && *answer == Answer::refused(12)
                    }
                    (Paged::Fail(page), None) => {
                        numbers >= needed && ROW * page.rows.len() == needed
                    }
                    _ => false,
                };
                trial.same((&input, numbers, &paged), right, true);
            }
        }
    }
}
