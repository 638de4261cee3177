//! The page as text: the program against the second one, from words and a plan file to lines.

mod asked;
mod refused;
mod shapes;

use second::inputs::files::{self, Tables};
use second::inputs::tables;
use second::page::ROW;
use second::rng::Rng;

use crate::file::W1;
use crate::page::asked::{exact, until_it_fails, Paged};
use crate::page::{of_one_partition, some_periods, PERIODS};
use crate::seen::Seen;
use crate::trial::{Named, Trial};
use crate::verdict::asked::{without_tasks, Input};
use asked::{
    compare_in_pieces, judge, lines, naming, EQUAL, JUST, LAST_TICK, LATER, MANY, MARKED_LAST,
    NO_TASK, PAST, SEVERAL, WHOLE, WITHIN, ZEROS_IN_FRONT,
};

pub const TRIALS: &[Named] = &[
    ("why, by hand", by_hand),
    ("why, serving", serving),
    ("why, every task", every_task),
    ("why, a tick too many", a_tick_too_many),
    ("why, the page beside it", the_page_beside_it),
    ("why, many points", many_points),
    ("why, equal shortages", shapes::equal_shortages),
    ("why, D beyond the frame", shapes::beyond_the_frame),
    ("why, in both editions", shapes::in_both_editions),
    ("why, numbers of each width", shapes::each_width),
    ("why, damaged", refused::damaged),
    ("why, plans that may not serve", refused::may_not_serve),
    ("why, two rules at once", refused::two_rules_at_once),
    (
        "why, words that name no task",
        refused::words_that_name_none,
    ),
    ("why, overlong files", refused::overlong),
    ("why, many tasks", shapes::many_tasks),
    ("why, long frames", shapes::long_frames),
    ("why, up to 4,096 points", shapes::every_tick_a_point),
    ("why, a process each", refused::a_process_each),
];

/// P1's plan and tasks that pass, just pass, just fail and fail at several points; a plan of one tick;
/// and in edition 2 a plan whose first tick belongs to the last run.
fn files_by_hand() -> Vec<Vec<u8>> {
    let tables = |edition, parts: &[u16], tasks: &[u16], runs: &[u16]| Tables {
        edition,
        frame: runs.chunks(2).map(|run| u64::from(run[1])).sum(),
        parts: parts.to_vec(),
        tasks: tasks.to_vec(),
        runs: runs.to_vec(),
    };
    let p1 = |tasks: &[u16]| {
        let runs = [1, 1, 2, 3, 1, 1, 3, 1, 0, 2];
        tables(1, &[4, 1, 4, 8, 3, 8, 8, 1, 100], tasks, &runs)
    };
    let one_tick = |edition, tasks: &[u16]| tables(edition, &[1, 1, 1], tasks, &[1, 1]);
    let all = [
        p1(&[2, 2, 8, 16, 2, 2, 13, 32]),
        p1(&[2, 2, 8, 16, 2, 2, 14, 32]),
        p1(&[2, 2, 8, 16, 2, 5, 17, 32]),
        p1(&[3, 1, 7, 9, 1, 1, 3, 9]),
        p1(&[]),
        one_tick(1, &[1, 4, 4, 4, 1, 2, 9, 9]),
        one_tick(2, &[1, 2, 4, 4, 1, 5, 9, 9]),
        tables(
            2,
            &[4, 1, 4],
            &[1, 2, 7, 9, 1, 1, 3, 9],
            &[1, 1, 0, 2, 1, 1],
        ),
        // 3 of 4 ticks are wanted, and two are there.
        tables(1, &[4, 3, 4], &[1, 1, 4, 4], &[1, 2, 0, 2]),
    ];
    let bytes = all.iter().map(Tables::bytes);
    bytes.chain([W1.to_vec()]).collect()
}

fn by_hand(trial: &mut Trial) {
    let places = [0, 1, 2, 3, 128, 129].map(|place| naming(trial, place));
    let words = [&places[..], &ZEROS_IN_FRONT, &NO_TASK[..4]].concat();
    for file in trial.each(files_by_hand()) {
        for read in [WHOLE, 1, 2, 3] {
            for written in [WHOLE, 1, 2, 3] {
                for words in &words {
                    compare_in_pieces(trial, words, &file, read, written);
                }
            }
        }
    }
}

fn some_serving(rng: &mut Rng) -> Tables {
    let count = rng.pick(&[1, 2, 3, 5]);
    let longest = rng.between(1, 24);
    let tasks = rng.pick(&[0, 1, 2, 4, 8]);
    files::serving(rng, count, longest, tasks)
}

/// A place of the table, or now and then one beside it.
fn some_place(rng: &mut Rng, tasks: usize) -> usize {
    if rng.one_in(20) {
        return rng.pick(&[0, tasks + 1, 128, 129]);
    }
    rng.between(1, tasks)
}

fn serving(trial: &mut Trial) {
    let mut seen = Seen::default();
    for _ in trial.cases(15_000) {
        let tables = some_serving(&mut trial.rng);
        let place = some_place(&mut trial.rng, tables.tasks.len() / 4);
        let words = naming(trial, place);
        judge(trial, words, &tables.bytes(), &mut seen);
    }
    seen.share(trial, &["pass", "fail", "refused 7"], [1, 10]);
    seen.share(trial, &[SEVERAL, LATER, PAST], [1, 20]);
    seen.share(trial, &[JUST, EQUAL, LAST_TICK], [1, 100]);
}

/// Every place of the table, and the two beside it.
fn every_task(trial: &mut Trial) {
    let mut seen = Seen::default();
    for _ in trial.cases(2500) {
        let rng = &mut trial.rng;
        let longest = rng.between(1, 24);
        let mut input = without_tasks(rng, 3, longest);
        let [count, period] = [rng.between(0, 8), rng.pick(&[6, 20, 60, 200])];
        input.tasks = tables::tasks(rng, count, input.partitions(), period);
        let file = input.file();
        for place in 0..=count + 1 {
            let words = naming(trial, place);
            judge(trial, words, &file, &mut seen);
        }
    }
    seen.share(trial, &["pass", "fail", SEVERAL, LATER], [1, 4]);
    seen.share(trial, &[EQUAL, PAST, WITHIN, MARKED_LAST], [1, 20]);
}

/// A task that just fails, and with a tick less just passes, if it did before.
fn a_tick_too_many(trial: &mut Trial) {
    let mut seen = Seen::default();
    for _ in trial.cases(5000) {
        let rng = &mut trial.rng;
        let periods = some_periods(rng);
        let d = rng.between(1, 90);
        let mut input = of_one_partition(rng, 20, &periods, d);
        if !until_it_fails(&mut input) {
            continue;
        }
        let words = naming(trial, input.listed());
        judge(trial, words, &input.file(), &mut seen);
        let task = input.listed();
        let task = input.task(task);
        if task[1] > 1 {
            task[1] -= 1;
            judge(trial, words, &input.file(), &mut seen);
        }
    }
    seen.share(trial, &["fail"], [3, 4]);
    seen.share(trial, &["pass", JUST, SEVERAL, LATER], [1, 4]);
    seen.share(trial, &[EQUAL, WITHIN, MARKED_LAST], [1, 20]);
}

/// "The same numbers come from `merkazobi_page`".
fn the_page_beside_it(trial: &mut Trial) {
    let mut seen = Seen::default();
    for _ in trial.cases(2000) {
        let rng = &mut trial.rng;
        let periods = some_periods(rng);
        let d = rng.between(1, 90);
        let mut input = of_one_partition(rng, 20, &periods, d);
        until_it_fails(&mut input);
        let place = input.listed();
        let words = naming(trial, place);
        let text = judge(trial, words, &input.file(), &mut seen);
        let Paged::Fail(page) = exact(trial, &input, place, &mut Seen::default()) else {
            continue;
        };
        let rows: Vec<[u64; ROW]> = lines(&text)
            .iter()
            .map(|line| {
                [
                    line.numbers[0],
                    line.numbers[1],
                    line.numbers[2],
                    line.start,
                ]
            })
            .collect();
        trial.same((&input, &text), &rows, &page.rows);
        let marked = lines(&text).into_iter().filter(|line| line.marked);
        let marked: Vec<[u64; 2]> = marked
            .map(|line| [line.numbers[0], line.numbers[3]])
            .collect();
        trial.same((&input, &text), marked, vec![[page.point, page.shortage]]);
    }
    seen.share(trial, &["fail"], [3, 4]);
    seen.share(trial, &[SEVERAL, LATER], [1, 4]);
}

/// Short periods below a late deadline: points of several of them, which meet.
fn many_points(trial: &mut Trial) {
    let mut seen = Seen::default();
    for _ in trial.cases(3000) {
        let rng = &mut trial.rng;
        let periods: Vec<usize> = (0..rng.between(1, 4)).map(|_| rng.pick(&PERIODS)).collect();
        let d = rng.between(40, 400);
        let mut input = of_one_partition(rng, 16, &periods, d);
        if until_it_fails(&mut input) {
            let task = input.listed();
            let task = input.task(task);
            task[1] = (task[1] + trial.rng.pick(&[0, 0, 1, 5])).min(task[2]);
            let words = naming(trial, input.listed());
            judge(trial, words, &input.file(), &mut seen);
        }
    }
    seen.share(trial, &["fail", MANY], [1, 2]);
    seen.share(trial, &[PAST, LATER], [1, 5]);
    seen.share(trial, &[EQUAL, WITHIN], [1, 10]);
}

/// A plan of some shape, and a task that fails behind some others.
fn failing(rng: &mut Rng, longest: usize, most: usize) -> Option<Input> {
    let periods = some_periods(rng);
    let d = rng.between(1, most);
    let mut input = of_one_partition(rng, longest, &periods, d);
    until_it_fails(&mut input).then_some(input)
}
