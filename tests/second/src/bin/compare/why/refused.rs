//! What is refused: files that aren't accepted, plans that don't serve, words that name no task; and
//! the program as people run it.

use second::inputs::files::{self, Tables};
use second::inputs::tables;
use second::rng::Rng;
use second::why;

use super::asked::{compare_in_pieces, judge, naming, note, NO_TASK, WHOLE, ZEROS_IN_FRONT};
use super::{files_by_hand, some_place, some_serving};
use crate::file::break_rule;
use crate::programs::{Ended, Words};
use crate::seen::Seen;
use crate::trial::Trial;

/// "a plan file, in bytes": at most so many.
const LONGEST: usize = 17_520;

/// Words for a place of the table, or now and then some that name none.
fn some_words(trial: &mut Trial, tasks: usize) -> Words {
    if trial.rng.one_in(10) {
        return trial.rng.pick(&NO_TASK[..3]);
    }
    let place = some_place(&mut trial.rng, tasks);
    naming(trial, place)
}

pub fn damaged(trial: &mut Trial) {
    let mut seen = Seen::default();
    for _ in trial.cases(15_000) {
        let tables = some_serving(&mut trial.rng);
        let words = some_words(trial, tables.tasks.len() / 4);
        let mut file = tables.bytes();
        for _ in 0..trial.rng.pick(&[1, 1, 2, 3]) {
            files::damage(&mut trial.rng, &mut file);
        }
        judge(trial, words, &file, &mut seen);
    }
    let refusals = [1, 2, 3, 4, 5, 6, 7, 8].map(|number| format!("refused {number}"));
    seen.share(trial, &refusals, [1, 100]);
    seen.share(trial, &["pass", "fail"], [1, 100]);
}

/// A share that may be too much; a task that isn't there comes before that.
pub fn may_not_serve(trial: &mut Trial) {
    let mut seen = Seen::default();
    for _ in trial.cases(6000) {
        let mut tables = files::tables(&mut trial.rng, 12);
        if trial.rng.one_in(2) {
            let frame = tables.frame as usize;
            tables = some_serving(&mut trial.rng);
            let record = trial.rng.between(0, tables.partitions() - 1);
            let part = tables::partitions(&mut trial.rng, 1, frame);
            tables.parts[3 * record + 1..][..2].copy_from_slice(&part[1..]);
        }
        let words = some_words(trial, tables.tasks.len() / 4);
        judge(trial, words, &tables.bytes(), &mut seen);
    }
    seen.share(trial, &["refused 7", "refused 9"], [1, 10]);
    seen.share(trial, &["pass", "fail"], [1, 20]);
}

/// "lowest number first" of the reader's, whatever the words name.
pub fn two_rules_at_once(trial: &mut Trial) {
    for _ in trial.cases(60) {
        for low in 1..=8 {
            for high in low..=8 {
                let mut tables = files::tables(&mut trial.rng, 12);
                tables.tasks.extend([1, 1, 1, 1]);
                let mut file = tables.bytes();
                break_rule(&mut trial.rng, &mut file, high);
                if low < high {
                    break_rule(&mut trial.rng, &mut file, low);
                }
                for words in [naming(trial, 1), naming(trial, 129), NO_TASK[0]] {
                    let text = judge(trial, words, &file, &mut Seen::default());
                    trial.same((&file, low, high), text, format!("refused {low}\n"));
                }
            }
        }
    }
}

/// "`refused 7`, of any file that is accepted", whether its plan serves or not.
pub fn words_that_name_none(trial: &mut Trial) {
    let drawn: Vec<Vec<u8>> = (0..40)
        .map(|_| files::tables(&mut trial.rng, 12).bytes())
        .collect();
    for file in trial.each([files_by_hand(), drawn].concat()) {
        for words in NO_TASK.into_iter().chain([naming(trial, 0)]) {
            let text = judge(trial, words, &file, &mut Seen::default());
            trial.same((words, &file), text, "refused 7\n".to_string());
        }
        for words in ZEROS_IN_FRONT {
            judge(trial, words, &file, &mut Seen::default());
        }
    }
}

/// As long as can be, and its plan serves in edition 1: a tick in any 34, across the frame's end too.
fn longest(rng: &mut Rng) -> Vec<u8> {
    let tables = Tables {
        edition: 1,
        parts: [34, 1, 34].repeat(16),
        ..files::largest(rng)
    };
    tables.bytes()
}

/// A short file and the longest one: as they are, and with more behind them up to the longest file's
/// length and past it, also so that in 16 bits the length would be right. What is wrong with the
/// contents comes first.
pub fn overlong(trial: &mut Trial) {
    let mut seen = Seen::default();
    let more = [0, 1, 2, 60, 20_000, 65_535, 65_536, 65_537, 200_000];
    let lengths = [LONGEST - 1, LONGEST, LONGEST + 1, LONGEST + 2, 65_536];
    for spoilt in trial.each([0, 2, 3, 4]) {
        let short = files::serving(&mut trial.rng, 3, 24, 4).bytes();
        let long = longest(&mut trial.rng);
        trial.same("the longest file", long.len(), LONGEST);
        for file in [short, long] {
            let longer = more.map(|more| file.len() + more);
            for length in longer.into_iter().chain(lengths) {
                let mut file = file.clone();
                file.resize(length, 0);
                if spoilt > 0 {
                    break_rule(&mut trial.rng, &mut file, spoilt);
                }
                for words in [naming(trial, 1), naming(trial, 128), NO_TASK[2]] {
                    let read = trial.rng.pick(&[WHOLE, 1000, 4096, 17]);
                    let text = compare_in_pieces(trial, words, &file, read, WHOLE);
                    note(&mut seen, &text, &file);
                }
            }
        }
    }
    let judged = seen.times("pass") + seen.times("fail");
    trial.same("files that are accepted", judged > 0, true);
}

const ALONE: [Words; 6] = [
    &["1"],
    &["2"],
    &["00001"],
    NO_TASK[0],
    NO_TASK[2],
    NO_TASK[3],
];

fn some_file(rng: &mut Rng, case: u64) -> Vec<u8> {
    let mut file = some_serving(rng).bytes();
    match case % 4 {
        0 => file.resize(LONGEST + case as usize % 3 * 30_000, 0),
        1 => files::damage(rng, &mut file),
        _ => {}
    }
    file
}

/// As people run it: over a pipe.
pub fn a_process_each(trial: &mut Trial) {
    for case in trial.cases(60) {
        let words = ALONE[case as usize % ALONE.len()];
        let file = some_file(&mut trial.rng, case);
        let found = trial.why_alone(words, &file);
        let wanted = why::text(why::place(words), &file);
        let wanted = Ended {
            status: Some(0),
            out: wanted.as_bytes().escape_ascii().to_string(),
            said: String::new(),
        };
        trial.same((words, file), found, wanted);
    }
}
