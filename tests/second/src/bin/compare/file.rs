//! The reader, the sections and the writer: the library against the second program.

use second::inputs::files::{self, get, put, Tables};
use second::inputs::{editions, faults};
use second::rng::Rng;
use second::{file, Answer};

use crate::batch::Entry;
use crate::trial::{Named, Trial};

pub const TRIALS: &[Named] = &[
    ("file, good", good_files),
    ("file, damaged", damaged_files),
    ("file, two rules at once", two_rules_at_once),
    ("file, every number of W1", every_number_of_w1),
    ("file, every pair of W1", every_pair_of_w1),
    ("file, at the limits", at_the_limits),
    ("file, lengths that wrap", lengths_that_wrap),
    ("file, spoilt tables", spoilt_tables),
];

const PATTERN: u8 = 0xA5;
const BEHIND: usize = 8;

pub const W1: [u8; 44] = [
    0, 1, 0, 4, 0, 16, 0, 2, 0, 28, 0, 1, 0, 36, 0, 2, 0, 4, 0, 1, 0, 2, 0, 4, 0, 1, 0, 3, 0, 1, 0,
    1, 0, 4, 0, 4, 0, 1, 0, 2, 0, 2, 0, 2,
];

/// The reader and every section; the refusal's number. Of a refused file the sections tell what
/// the reader does, whichever is asked for.
pub fn compare_read(trial: &mut Trial, bytes: &[u8]) -> u64 {
    let answer = read(trial, bytes);
    for which in [0, 1, 2, 3, 1 << 32, u64::MAX] {
        let part = section(trial, bytes, which);
        if answer.number != 0 {
            trial.same((bytes, which), part, answer);
        }
    }
    answer.number
}

fn read(trial: &mut Trial, bytes: &[u8]) -> Answer {
    let answer = file::read(bytes);
    trial.call(Entry::Read, &[], answer).reads(bytes);
    answer
}

fn section(trial: &mut Trial, bytes: &[u8], which: u64) -> Answer {
    let answer = file::section(bytes, which);
    let call = trial.call(Entry::Section, &[which], answer);
    call.reads(bytes);
    answer
}

/// Lends so many bytes to both writers; the answer, and the bytes lent.
pub fn compare_write(trial: &mut Trial, tables: &Tables, out_bytes: usize) -> (Answer, Vec<u8>) {
    let Tables {
        edition,
        frame,
        parts,
        tasks,
        runs,
    } = tables;
    let before = vec![PATTERN; out_bytes + BEHIND];
    let mut after = before.clone();
    let out = &mut after[..out_bytes];
    let answer = file::write(*edition, *frame, parts, tasks, runs, out);
    let call = trial.call(Entry::Write, &[*edition, *frame], answer);
    let call = call.reads(parts).reads(tasks).reads(runs);
    call.writes(out_bytes, &before, &after);
    after.truncate(out_bytes);
    (answer, after)
}

/// The length of the file with these tables.
pub fn length(tables: &Tables) -> usize {
    16 + 2 * (tables.parts.len() + tables.tasks.len() + tables.runs.len())
}

fn some_length(rng: &mut Rng, needed: usize) -> usize {
    match rng.between(0, 5) {
        0 => 0,
        1 => needed - 1,
        2 => needed,
        3 => needed + 1,
        4 => rng.between(0, needed),
        _ => needed + rng.between(1, 40),
    }
}

/// What the sections hold, as numbers.
fn bodies(trial: &mut Trial, bytes: &[u8]) -> [Vec<u16>; 3] {
    [0, 1, 2].map(|which| {
        let body = section(trial, bytes, which);
        let body = body.first as usize..body.second as usize;
        body.step_by(2).map(|at| get(bytes, at)).collect()
    })
}

/// Read after write gives the tables, write after read gives the bytes, which are told.
pub fn there_and_back(trial: &mut Trial, tables: &Tables) -> Vec<u8> {
    let (answer, out) = compare_write(trial, tables, length(tables));
    trial.same(tables, answer.first, out.len() as u64);
    let [parts, tasks, runs] = bodies(trial, &out);
    let said = read(trial, &out);
    let again = Tables {
        edition: said.fifth,
        frame: said.first,
        parts,
        tasks,
        runs,
    };
    trial.same(&out, &again, tables);
    let (_, bytes) = compare_write(trial, &again, out.len());
    trial.same(tables, &bytes, &out);
    out
}

fn good_files(trial: &mut Trial) {
    for _ in trial.cases(20_000) {
        let longest = trial.rng.pick(&[1, 4, 20, 40]);
        let tables = files::tables(&mut trial.rng, longest);
        let number = compare_read(trial, &tables.bytes());
        trial.same(&tables, number, 0);
        there_and_back(trial, &tables);
        let out_bytes = some_length(&mut trial.rng, length(&tables));
        compare_write(trial, &tables, out_bytes);
    }
}

fn damaged_files(trial: &mut Trial) {
    for _ in trial.cases(80_000) {
        let longest = trial.rng.pick(&[4, 12, 40]);
        let mut bytes = files::tables(&mut trial.rng, longest).bytes();
        for _ in 0..trial.rng.pick(&[1, 1, 1, 2, 3]) {
            files::damage(&mut trial.rng, &mut bytes);
        }
        compare_read(trial, &bytes);
    }
}

/// Makes the file break the rule of a refusal of the reader, and no other but it must.
pub fn break_rule(rng: &mut Rng, bytes: &mut Vec<u8>, number: u64) {
    let [tasks, runs] = [8, 12].map(|at| usize::from(get(bytes, at)));
    match number {
        1 => bytes.truncate(rng.between(0, 15)),
        2 => put(bytes, 0, rng.pick(&[0, 3, 4, 256, 257, 258, 65535])),
        3 => {
            let (at, number) = rng.pick(&[(2, 0), (2, 4097), (6, 0), (6, 17), (10, 129), (14, 0)]);
            put(bytes, at, number);
        }
        4 => {
            let at = rng.pick(&[4, 8, 12]);
            let wrong = get(bytes, at).wrapping_add(rng.pick(&[1, 8, 65535]));
            put(bytes, at, wrong);
        }
        5 => bytes.extend(vec![0; rng.pick(&[1, 4, 65536])]),
        6 => put(bytes, 16 + rng.pick(&[0, 2, 4]), 0),
        7 => put(bytes, tasks + rng.pick(&[0, 2, 4, 6]), 0),
        _ => put(bytes, runs + 2, rng.pick(&[0, 4097, 65535])),
    }
}

/// "lowest number first"
fn two_rules_at_once(trial: &mut Trial) {
    for _ in trial.cases(300) {
        for low in 1..=8 {
            for high in low..=8 {
                let mut tables = files::tables(&mut trial.rng, 12);
                tables.tasks.extend([1, 1, 1, 1]);
                let mut bytes = tables.bytes();
                break_rule(&mut trial.rng, &mut bytes, high);
                if low < high {
                    break_rule(&mut trial.rng, &mut bytes, low);
                }
                let number = compare_read(trial, &bytes);
                trial.same((&bytes, low, high), number, low);
            }
        }
    }
}

fn every_number_of_w1(trial: &mut Trial) {
    for length in trial.each(0..=W1.len()) {
        compare_read(trial, &W1[..length]);
    }
    for more in trial.each([1, 2, 3, 4, 8, 65536 - 44, 65536]) {
        compare_read(trial, &[&W1[..], &vec![0; more]].concat());
    }
    for at in trial.each((0..W1.len()).step_by(2)) {
        for number in 0..=u16::MAX {
            let near = !(70..=65532).contains(&number);
            if near || faults::EDGES.contains(&number) {
                let mut bytes = W1;
                put(&mut bytes, at, number);
                compare_read(trial, &bytes);
            }
        }
    }
}

fn every_pair_of_w1(trial: &mut Trial) {
    let numbers = [0, 1, 2, 3, 4, 5, 16, 28, 36, 65535];
    for first in trial.each((0..W1.len()).step_by(2)) {
        for second in (0..first).step_by(2) {
            for (one, other) in numbers.iter().flat_map(|n| numbers.map(|k| (*n, k))) {
                let mut bytes = W1;
                put(&mut bytes, first, one);
                put(&mut bytes, second, other);
                compare_read(trial, &bytes);
            }
        }
    }
}

fn at_the_limits(trial: &mut Trial) {
    for _ in trial.cases(150) {
        let tables = files::largest(&mut trial.rng);
        there_and_back(trial, &tables);
        let mut bytes = tables.bytes();
        let number = compare_read(trial, &bytes);
        trial.same(&bytes, number, 0);
        files::damage(&mut trial.rng, &mut bytes);
        compare_read(trial, &bytes);
        let out_bytes = some_length(&mut trial.rng, length(&tables));
        compare_write(trial, &tables, out_bytes);
    }
}

/// Lengths whose sum, taken in two bytes, would be the frame.
fn lengths_that_wrap(trial: &mut Trial) {
    for _ in trial.cases(5000) {
        let mut tables = files::tables(&mut trial.rng, 12);
        faults::wrapping_lengths(&mut trial.rng, &mut tables.runs);
        compare_read(trial, &tables.bytes());
        compare_write(trial, &tables, length(&tables));
    }
}

fn spoil(rng: &mut Rng, tables: &mut Tables) {
    let partitions = tables.partitions();
    let frame = tables.frame;
    let far = [0, 1, 65536, 1 << 32, u64::MAX].map(|more| frame.wrapping_add(more));
    match rng.between(0, 8) {
        0 => tables.frame = rng.pick(&[0, 4096, 4097, 65535, 65536, frame << 32]),
        1 => tables.frame = rng.pick(&far),
        2 | 3 => faults::partitions(rng, &mut tables.parts, frame.min(4096) as usize),
        4 | 5 => faults::tasks(rng, &mut tables.tasks, partitions),
        6 => tables.edition = rng.pick(&editions::OUTSIDE),
        _ => faults::runs(rng, &mut tables.runs),
    }
}

fn spoilt_tables(trial: &mut Trial) {
    for _ in trial.cases(60_000) {
        let longest = trial.rng.pick(&[4, 12, 40]);
        let mut tables = files::tables(&mut trial.rng, longest);
        for _ in 0..trial.rng.pick(&[1, 1, 2, 3]) {
            spoil(&mut trial.rng, &mut tables);
        }
        let out_bytes = some_length(&mut trial.rng, length(&tables));
        compare_write(trial, &tables, out_bytes);
        compare_read(trial, &tables.bytes());
    }
}
