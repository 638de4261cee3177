//! The listing: the library against the second program.

use second::inputs::files::{self, Tables};
use second::inputs::{editions, tables};
use second::listing;
use second::rng::Rng;

use crate::batch::Entry;
use crate::trial::{Named, Trial};

pub const TRIALS: &[Named] = &[
    ("listing, serving", serving),
    (
        "listing, plans that may not serve",
        plans_that_may_not_serve,
    ),
    ("listing, damaged", damaged),
    (
        "listing, every length of the output",
        every_length_of_the_output,
    ),
    ("listing, long", long_listings),
];

const PATTERN: u8 = 0xA5;
const BEHIND: usize = 8;

fn compare_into(trial: &mut Trial, file: &[u8], out_bytes: usize) {
    let before = vec![PATTERN; out_bytes + BEHIND];
    let mut after = before.clone();
    let answer = listing::list(file, &mut after[..out_bytes]);
    let call = trial.call(Entry::List, &[], answer);
    call.reads(file).writes(out_bytes, &before, &after);
}

/// An output too short, exact or longer; the listing of the second program.
pub fn compare(trial: &mut Trial, file: &[u8]) -> String {
    let text = listing::text(file);
    let needed = text.len();
    let out_bytes = match trial.rng.between(0, 7) {
        0 => needed - 1,
        1 => trial.rng.between(0, needed),
        2 | 3 => needed,
        _ => needed + trial.rng.between(1, 50),
    };
    compare_into(trial, file, out_bytes);
    text
}

fn some_serving(rng: &mut Rng) -> Tables {
    let count = rng.pick(&[1, 2, 3, 5]);
    let longest = rng.between(1, 24);
    let tasks = rng.pick(&[0, 1, 2, 4, 8]);
    files::serving(rng, count, longest, tasks)
}

/// How many lines end in a tick that is below the point, as `pass 4 tick 3` does.
fn below_the_point(text: &str) -> u64 {
    let ends = text.lines().filter_map(|line| line.split_once(" pass "));
    let pairs = ends.filter_map(|(_, end)| end.split_once(" tick "));
    let numbers = pairs.map(|(point, tick)| [tick, point].map(str::parse::<u64>));
    let below = numbers.filter(|pair| matches!(pair, [Ok(tick), Ok(point)] if tick < point));
    below.count() as u64
}

fn serving(trial: &mut Trial) {
    let [mut pass, mut fail, mut below] = [0; 3];
    for _ in trial.cases(25_000) {
        let file = some_serving(&mut trial.rng).bytes();
        let text = compare(trial, &file);
        pass += text.matches("pass").count() as u64;
        fail += text.matches("fail").count() as u64;
        below += below_the_point(&text);
    }
    trial.share("pass", pass, [1, 25]);
    trial.share("fail", fail, [1, 25]);
    trial.share("tick below the point", below, [1, 25]);
}

fn plans_that_may_not_serve(trial: &mut Trial) {
    let mut refused = 0;
    for _ in trial.cases(20_000) {
        let mut tables = files::tables(&mut trial.rng, 12);
        if trial.rng.one_in(2) {
            let frame = tables.frame as usize;
            tables = some_serving(&mut trial.rng);
            let record = trial.rng.between(0, tables.partitions() - 1);
            let part = tables::partitions(&mut trial.rng, 1, frame);
            tables.parts[3 * record + 1..][..2].copy_from_slice(&part[1..]);
        } else if !trial.rng.one_in(10) {
            // Every tick up to D is tried: mostly short ones.
            let [tasks, partitions] = [tables.tasks.len() / 4, tables.partitions()];
            tables.tasks = tables::tasks(&mut trial.rng, tasks, partitions, 100);
        }
        let text = compare(trial, &tables.bytes());
        refused += u64::from(text == "refused 9\n");
    }
    trial.share("refused with 9", refused, [1, 20]);
}

fn damaged(trial: &mut Trial) {
    for _ in trial.cases(40_000) {
        let mut file = some_serving(&mut trial.rng).bytes();
        for _ in 0..trial.rng.pick(&[1, 1, 2, 3]) {
            files::damage(&mut trial.rng, &mut file);
        }
        compare(trial, &file);
    }
}

fn every_length_of_the_output(trial: &mut Trial) {
    for _ in trial.cases(50) {
        let file = some_serving(&mut trial.rng).bytes();
        for out_bytes in 0..=listing::text(&file).len() + 3 {
            compare_into(trial, &file, out_bytes);
        }
        for out_bytes in 0..=12 {
            compare_into(trial, &file[..file.len() - 1], out_bytes);
        }
    }
}

/// Sixteen partitions, many tasks, and numbers of up to four digits.
fn long_listings(trial: &mut Trial) {
    for case in trial.cases(20) {
        let mut tables = some_serving(&mut trial.rng);
        let partitions = tables.partitions();
        for _ in 0..trial.rng.between(60, 128 - tables.tasks.len() / 4) {
            let owner = trial.rng.between(1, partitions) as u16;
            let period = trial.rng.between(200, 400) as u16;
            tables.tasks.extend([owner, 1, period, period]);
        }
        if case % 5 == 0 {
            tables = long_frame(&mut trial.rng);
        }
        compare(trial, &tables.bytes());
    }
}

fn long_frame(rng: &mut Rng) -> Tables {
    let owned = rng.between(1500, 2500) as u16;
    Tables {
        edition: editions::good(rng).number(),
        frame: 4096,
        parts: vec![4096, 1, 3, 4096, 1, 3],
        tasks: vec![1, rng.between(1, 1400) as u16, 4096, 4096],
        runs: vec![1, owned, 2, 4096 - owned],
    }
}
