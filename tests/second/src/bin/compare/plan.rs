//! The planner: the program against the second one, from words and a share table's text to a plan file.

use second::inputs::{faults, granules, tables, texts};
use second::limits::TEXT;
use second::rng::Rng;
use second::share_table::ShareTable;
use second::{file, plan, planner, ticks, Answer};

use crate::programs::{Ended, Words};
use crate::seen::Seen;
use crate::trial::{Named, Trial};

pub const TRIALS: &[Named] = &[
    ("plan, by hand", by_hand),
    ("plan, good tables", good_tables),
    ("plan, full and one tick more", full_and_one_tick_more),
    ("plan, one run", one_run),
    ("plan, faults", faults),
    ("plan, damaged texts", damaged_texts),
    ("plan, words that don't belong", words_that_dont_belong),
    ("plan, each word at each place", each_word_at_each_place),
    ("plan, granule lines", granule_lines),
    ("plan, at the limits", at_the_limits),
    ("plan, long texts", long_texts),
    ("plan, granule in a long text", granule_in_a_long_text),
    ("plan, far lines", far_lines),
    ("plan, words that name no edition", words_that_name_none),
    ("plan, a process each", a_process_each),
];

const PATTERN: u8 = 0xA5;
/// Room for any line, so that a complaint shows the whole of a wrong one.
const BEHIND: usize = 64;

/// All at once: more bytes than any text or plan file has.
const WHOLE: u64 = 1 << 20;

/// A process of the planner is started for each list of words that a trial comes to.
const ONE: [Words; 2] = [&[], &["1"]];
const TWO: Words = &["2"];
/// Of the word with six digits the first five alone would name edition 2.
const NONE: [Words; 5] = [&["3"], &["0"], &["x"], &["000021"], &["65538"]];

/// Words that name an edition, the first in half of all cases.
fn some_words(rng: &mut Rng) -> Words {
    rng.pick(&[ONE[0], ONE[1], TWO, TWO])
}

/// The same, or now and then words that name none.
fn any_words(rng: &mut Rng) -> Words {
    let words = some_words(rng);
    if rng.one_in(30) {
        rng.pick(&NONE)
    } else {
        words
    }
}

fn answer(words: Words, text: &[u8]) -> Vec<u8> {
    planner::answer(planner::edition(words), text)
}

/// Gives words and text to both programs; reads and writes may come to only so many bytes at a time.
fn compare_in_pieces(
    trial: &mut Trial,
    words: Words,
    text: &[u8],
    read: u64,
    written: u64,
) -> Vec<u8> {
    let wanted = answer(words, text);
    let before = vec![PATTERN; wanted.len() + BEHIND];
    let after = [&wanted[..], &[PATTERN; BEHIND]].concat();
    let answer = Answer::good([wanted.len() as u64, 0, 0, 0]);
    let call = trial.plan(words, &[read, written], answer);
    call.reads(text).writes(before.len(), &before, &after);
    wanted
}

fn compare(trial: &mut Trial, words: Words, text: &[u8]) -> Vec<u8> {
    let [read, written] = [0; 2].map(|_| trial.rng.pick(&[WHOLE, WHOLE, WHOLE, 1, 7, 1000]));
    compare_in_pieces(trial, words, text, read, written)
}

/// A plan that was written serves its table, by its own edition.
fn serves(trial: &Trial, table: &ShareTable, answer: &[u8]) {
    if let Ok(written) = file::parse(answer) {
        let ticks = ticks::of_runs(&written.runs);
        let edition = written.edition.number();
        let checked = plan::check(edition, table.g(), &ticks, &table.parts);
        trial.same(table, checked.number, 0);
    }
}

const BY_HAND: [&str; 35] = [
    "",
    "\n",
    "\r\n\t \n",
    "#",
    "# only\n  # comments\n",
    "partition 4 1/2",
    "partition 4 1/2\n",
    "partition 4 1/2\r\n",
    "\r partition\r4\r1\r/\r2\r\n",
    "partition\t4 1 / 2\n",
    "partition 4 1/ 2\ntask 1 1 4 4",
    "task 1 1 4 4\npartition 4 1 /2#x",
    "partition 4 1/2/3\n",
    "partition 4 1//2\n",
    "partition 4 /2\n",
    "partition 4 1/2 #\npartition 4 1/2#\n#partition 4 1/2\n",
    "partition 4 1/2 partition 4 1/2\n",
    "partition\n4 1/2\n",
    "partition4 1/2\n",
    "PARTITION 4 1/2\n",
    "\n\n\n# three lines\npartition 4 1\n",
    "partition 4 1/4\npartition 8 3/8\npartition 8 1/100\n",
    "partition 4 1/4\npartition 8 3/8\npartition 8 1/2\n",
    "partition 4 1/1\npartition 6 1/1\n",
    "granule 2\npartition 4 1/4\npartition 8 3/8\n",
    "granule 2\npartition 4 1/4\npartition 8 3/8\npartition 8 1/100\n",
    "granule 17\npartition 4 1/4\n",
    "partition 4 1/4\ngranule 2\n",
    "granule 2\n\ngranule 2\npartition 4 1/4\n",
    "granule\npartition 4 1/4\n",
    "granules 2\npartition 4 1/4\n",
    // Plans of one run, with tasks and without, and one that is a tick short of it.
    "partition 1 1/1000\n",
    "partition 4 1/1\ntask 1 1 4 4\n",
    "granule 4\npartition 4 1/9\ntask 1 1 4 4\n",
    "partition 12 11/12\n",
];

fn by_hand(trial: &mut Trial) {
    for text in trial.each(BY_HAND) {
        for read in [WHOLE, 1, 2, 3] {
            for written in [WHOLE, 1, 2, 3] {
                for words in [ONE[0], ONE[1], TWO, NONE[0]] {
                    compare_in_pieces(trial, words, text.as_bytes(), read, written);
                }
            }
        }
    }
}

fn good_tables(trial: &mut Trial) {
    let mut seen = Seen::default();
    for _ in trial.cases(20_000) {
        let longest = trial.rng.pick(&[1, 4, 12, 48, 200, 4096, 4096]);
        let partitions = trial.rng.pick(&[1, 3, 6, 16, 16]);
        let tasks = trial.rng.pick(&[0, 1, 2, 5, 20]);
        let table = texts::table(&mut trial.rng, partitions, longest, tasks);
        let text = texts::laid_out(&mut trial.rng, &table);
        let words = some_words(&mut trial.rng);
        let answer = compare(trial, words, &text);
        seen.note(&answer);
        // The second program's checker costs a frame times a cycle.
        if longest <= 200 {
            serves(trial, &table, &answer);
        }
    }
    seen.share(trial, &["a plan", "refused 9"], [1, 10]);
    let shapes = [
        "one run",
        "many runs",
        "idle at the end",
        "owned at the end",
    ];
    seen.share(trial, &shapes, [1, 50]);
}

fn full_and_one_tick_more(trial: &mut Trial) {
    let mut seen = Seen::default();
    for _ in trial.cases(10_000) {
        let rng = &mut trial.rng;
        let longest = rng.between(1, 100);
        let count = rng.pick(&[1, 2, 4, 16]);
        let above = rng.one_in(2);
        let granule = granules::up_to(rng, longest);
        let table = ShareTable {
            granule: texts::said(rng, granule),
            parts: tables::full(rng, granule, count, longest, above),
            tasks: Vec::new(),
        };
        let words = some_words(&mut trial.rng);
        seen.note(&compare(trial, words, &texts::plain(&table)));
    }
    seen.share(trial, &["a plan", "refused 9", "refused 11"], [1, 20]);
}

/// A cycle that one partition wants all of, which is what a plan of edition 2 is built for; and all but
/// one tick of it, of which another one is spent on switching.
fn one_run(trial: &mut Trial) {
    let mut seen = Seen::default();
    for case in trial.cases(3000) {
        let rng = &mut trial.rng;
        let granule = granules::good(rng);
        let most = if case % 100 == 0 { 4096 } else { 160 };
        let cycle = granule as usize * rng.between(1, most / granule as usize);
        let [num, den] = if cycle as u64 == granule {
            tables::share(rng)
        } else {
            [1, 1]
        };
        let tasks = rng.pick(&[0, 1, 3]);
        let mut table = ShareTable {
            granule: texts::said(rng, granule),
            parts: vec![cycle as u16, num, den],
            tasks: tables::tasks(rng, tasks, 1, 4096),
        };
        both_editions(trial, &texts::plain(&table), &mut seen);
        let m = trial.rng.between(2, 1000) as u16;
        table.granule = None;
        table.parts = vec![m, m - 1, m];
        let short = compare(trial, TWO, &texts::plain(&table));
        let values = format!("start 0 held {} wanted {}", m - 2, m - 1);
        let line = format!("refused 9 partition 1 {values}\n").into_bytes();
        trial.same(&table, short, line);
    }
    seen.share(trial, &["a plan of edition 2"], [4, 5]);
}

/// A plan of one run: the two files differ in their first number alone.
fn both_editions(trial: &mut Trial, text: &[u8], seen: &mut Seen) {
    let [one, two] = [ONE[0], TWO].map(|words| compare(trial, words, text));
    seen.note(&two);
    let said = [&one[..2], &two[..2]];
    let shown = text.escape_ascii().to_string();
    trial.same(&shown, said, [&[0, 1][..], &[0, 2]]);
    trial.same(&shown, &one[2..], &two[2..]);
}

/// Numbers that break the rules of the tables, and cycles that don't divide one another.
fn faults(trial: &mut Trial) {
    let mut seen = Seen::default();
    for _ in trial.cases(20_000) {
        let rng = &mut trial.rng;
        let tasks = rng.between(0, 5);
        let mut table = texts::table(rng, 5, 64, tasks);
        let partitions = table.parts.len() / 3;
        if rng.one_in(3) {
            let place = rng.between(0, partitions - 1);
            table.parts[3 * place] = rng.between(1, 70) as u16;
        }
        if rng.one_in(3) {
            faults::partitions(rng, &mut table.parts, 4096);
        }
        if rng.one_in(2) {
            faults::tasks(rng, &mut table.tasks, partitions);
        }
        let granule = granules::or_other(rng, table.g());
        table.granule = texts::said(rng, granule);
        let text = texts::laid_out(rng, &table);
        let words = any_words(rng);
        seen.note(&compare(trial, words, &text));
    }
    seen.share(trial, &["refused 2", "refused 9", "refused 21"], [1, 200]);
    let refusals = ["refused 3", "refused 6", "refused 7", "refused 10"];
    seen.share(trial, &refusals, [1, 50]);
    seen.share(trial, &["a plan"], [1, 20]);
}

/// What the text's lines are answered with.
const EXPECTED: [&str; 5] = [
    "`granule`, `partition` or `task`",
    "`granule` once, before the partitions",
    "a number from 0 to 65535",
    "`/`",
    "the end of the line",
];

fn some_text(rng: &mut Rng) -> Vec<u8> {
    let partitions = rng.pick(&[1, 2, 4]);
    let tasks = rng.pick(&[0, 1, 3]);
    let table = texts::table(rng, partitions, 24, tasks);
    texts::laid_out(rng, &table)
}

fn damaged_text(rng: &mut Rng) -> Vec<u8> {
    let mut text = some_text(rng);
    for _ in 0..rng.pick(&[1, 1, 2, 3]) {
        texts::damage(rng, &mut text);
    }
    text
}

fn damaged_texts(trial: &mut Trial) {
    let mut seen = Seen::default();
    for _ in trial.cases(40_000) {
        let text = damaged_text(&mut trial.rng);
        let words = any_words(&mut trial.rng);
        seen.note(&compare(trial, words, &text));
    }
    seen.share(trial, &EXPECTED, [1, 100]);
    seen.share(trial, &["a plan"], [1, 20]);
}

fn words_that_dont_belong(trial: &mut Trial) {
    let mut seen = Seen::default();
    for _ in trial.cases(40_000) {
        let rng = &mut trial.rng;
        let tasks = rng.between(0, 3);
        let table = texts::table(rng, 3, 24, tasks);
        let mut lines = texts::lines(&table);
        rng.shuffle(&mut lines);
        texts::spoil_words(rng, &mut lines);
        let words = any_words(rng);
        seen.note(&compare(trial, words, &texts::joined(&lines)));
    }
    seen.share(trial, &EXPECTED, [1, 50]);
    seen.share(trial, &["a plan"], [1, 20]);
}

/// Before each word of a line, in its place, and behind the last; the line goes on, or ends there.
fn each_word_at_each_place(trial: &mut Trial) {
    let table = ShareTable {
        granule: Some(2),
        parts: vec![8, 1, 4],
        tasks: vec![1, 1, 8, 8],
    };
    let good = texts::lines(&table);
    for odd in trial.each(texts::ODD_WORDS) {
        for (at, words) in good.iter().enumerate() {
            for place in 0..=words.len() {
                for rest in [place, place + 1, words.len()] {
                    let rest = words.get(rest..).unwrap_or_default();
                    let mut lines = good.clone();
                    lines[at] = [&words[..place], &[odd.to_vec()], rest].concat();
                    let named = some_words(&mut trial.rng);
                    compare(trial, named, &texts::joined(&lines));
                }
            }
        }
    }
}

/// What stands behind `granule` besides plain numbers, of which those above 65535 are none.
const NEARLY_GRANULES: [&str; 17] = [
    "0000000000000",
    "016",
    "00000000000017",
    "18446744073709551617",
    "",
    "x",
    "2x",
    "+2",
    "-1",
    "2 2",
    "2/1",
    "/",
    "2 granule 2",
    "2 # 3",
    "2#3",
    "#2",
    "\t2\r",
];

/// Where the line stands, and what else is wrong.
const WITH_A_GRANULE: [&str; 20] = [
    "granule G",
    "granule G\npartition 96 1/100\npartition 96 1/3\n",
    "# first\n\n\tgranule G\r\npartition 16 1/100",
    "task 1 1 96 96\ngranule G\ntask 1 1 96 96\npartition 96 1/3\n",
    "granule G\npartition 8 1/8\n",
    "granule G\npartition 5 1/5\npartition 80 1/100\n",
    // Too late.
    "partition 96 1/3\ngranule G\n",
    "partition 96 1/3\ntask 1 1 96 96\n#\ngranule G\npartition 96 1/3\n",
    "partition 0 0/0\ngranule G",
    "granule 2\ngranule G\npartition 96 1/3\n",
    "granule G\ntask 1 1 96 96\ngranule 2\npartition 96 1/3\n",
    "granule 17\ngranule G\n",
    "granule 2\npartition 96 1/3\ngranule G",
    "granule 2\ngranule G\nnor this",
    // Another wrong line, then 3, 6, 7, 10 and 11.
    "granule G\npartition 96 1/3\ngranule\n",
    "granule G\ntask 1 1 96 96\n",
    "granule G\npartition 0 1/3\npartition 5 1/3\npartition 96 1/3\n",
    "granule G\npartition 96 1/3\ntask 3 1 96 96\npartition 95 1/3",
    "granule G\npartition 96 1/3\npartition 95 1/3",
    "granule G\npartition 16 1/1\npartition 16 1/1",
];

fn granule_lines(trial: &mut Trial) {
    let mut seen = Seen::default();
    let many = [
        "partition 16 1/16\n".repeat(17),
        "task 1 1 1 1\n".repeat(129),
    ];
    let many = many.map(|lines| format!("granule G\n{lines}partition 16 1/16\n"));
    let tables = WITH_A_GRANULE.map(String::from).into_iter().chain(many);
    let tables: Vec<String> = tables.collect();
    let plain = granules::all().map(|granule| granule.to_string());
    let words = plain.chain(NEARLY_GRANULES.map(String::from));
    let cases = words.flat_map(|word| tables.iter().map(move |lines| lines.replace('G', &word)));
    for text in trial.each(cases) {
        let words = some_words(&mut trial.rng);
        seen.note(&compare(trial, words, text.as_bytes()));
    }
    seen.share(trial, &EXPECTED[1..3], [1, 20]);
    let refusals = [3, 6, 7, 10, 11, 21].map(|number| format!("refused {number}"));
    seen.share(trial, &refusals, [1, 100]);
    seen.share(trial, &["a plan"], [1, 50]);
}

/// A text just long enough and a byte too long, with a granule that is refused.
fn granule_in_a_long_text(trial: &mut Trial) {
    for granule in trial.each(["1", "17", "x"]) {
        for bytes in [TEXT, TEXT + 1] {
            let said = format!("granule {granule}\npartition 8 1/8\n#");
            let mut text = said.into_bytes();
            text.resize(bytes, b' ');
            for words in [ONE[0], TWO, NONE[0]] {
                compare_in_pieces(trial, words, &text, WHOLE, WHOLE);
            }
        }
    }
}

/// So many partitions and tasks; the first owns every second tick, so that each run is one tick.
fn many(partitions: usize, tasks: usize) -> ShareTable {
    let mut parts = [4096, 1, 1000].repeat(partitions);
    if let [cycle, _, den, ..] = &mut parts[..] {
        [*cycle, *den] = [2, 2];
    }
    ShareTable {
        granule: None,
        parts,
        tasks: [1, 1, 2, 4096].repeat(tasks),
    }
}

fn at_the_limits(trial: &mut Trial) {
    let mut longest = 0;
    for partitions in trial.each([16, 17, 0, 1, 2, 15, 18, 32, 256, 272]) {
        for tasks in [0, 1, 127, 128, 129, 130, 255, 256, 257, 384] {
            let text = texts::plain(&many(partitions, tasks));
            longest = longest.max(compare(trial, ONE[0], &text).len());
            // A wrong line comes first, a granule behind too many records, a bad record last.
            for line in [
                "partition 4 1",
                "partition 0 1/1",
                "task 1 2 1 1",
                "granule 17",
            ] {
                let words = some_words(&mut trial.rng);
                compare(trial, words, &[&text[..], line.as_bytes()].concat());
                compare(trial, words, &[line.as_bytes(), b"\n", &text[..]].concat());
            }
        }
    }
    trial.same("the longest plan file", longest, 17_520);
}

/// A good table filled up to so many bytes: before a word, behind one, within one, in a line of
/// its own, at the end.
const PLACES: [usize; 9] = [0, 7, 8, 9, 19, 20, 21, 25, 39];

fn filled(bytes: usize, filler: u8, place: usize) -> Vec<u8> {
    let (before, behind) = b"granule 2\npartition 8 1/4\ntask 1 1 8 8\n".split_at(place);
    let more = bytes - before.len() - behind.len();
    [before, &vec![filler; more], behind].concat()
}

fn long_texts(trial: &mut Trial) {
    let fillers = *b" \n#0\tx";
    let cases = PLACES
        .iter()
        .flat_map(|&place| fillers.map(|filler| (place, filler)));
    for (place, filler) in trial.each(cases) {
        for bytes in [TEXT - 1, TEXT, TEXT + 1, TEXT + 2, 70_000, 2 * TEXT] {
            let text = filled(bytes, filler, place);
            let words = any_words(&mut trial.rng);
            compare_in_pieces(trial, words, &text, WHOLE, WHOLE);
        }
    }
}

/// A wrong line behind so many blank ones that its number gets a digit or a bit more.
fn far_lines(trial: &mut Trial) {
    let edges = faults::EDGES.map(usize::from);
    let digits = [9, 10, 11, 99, 100, 101, 255, 256, 257, 9999, 10_000];
    for blank in trial.each([edges.to_vec(), digits.to_vec()].concat()) {
        let text = [vec![b'\n'; blank], vec![b'x']].concat();
        let words = some_words(&mut trial.rng);
        compare_in_pieces(trial, words, &text, WHOLE, WHOLE);
    }
}

/// "2 now means neither 1 nor 2, in a call too": whatever the text, an overlong one too.
fn words_that_name_none(trial: &mut Trial) {
    let overlong = [b' ', b'x'].map(|filler| vec![filler; TEXT + 1]);
    let texts = BY_HAND.map(|text| text.as_bytes().to_vec());
    for text in trial.each(texts.into_iter().chain(overlong)) {
        for words in NONE {
            let found = compare(trial, words, &text);
            let wanted = b"refused 2\n".to_vec();
            trial.same((words, text.len()), found, wanted);
        }
    }
}

/// Digits in front are none the less those of a number; two words, and an empty one, name no edition.
const ALONE: [Words; 11] = [
    ONE[0],
    TWO,
    ONE[1],
    &["01"],
    &["00002"],
    NONE[0],
    NONE[1],
    NONE[2],
    NONE[3],
    &["2", "2"],
    &[""],
];

/// As people run it: over a pipe.
fn a_process_each(trial: &mut Trial) {
    for case in trial.cases(60) {
        let words = ALONE[case as usize % ALONE.len()];
        let text = match case % 4 {
            0 => filled(TEXT + case as usize % 3 - 1, b' ', 0),
            1 => damaged_text(&mut trial.rng),
            2 => b"partition 4 1/1\ntask 1 1 4 4\n".to_vec(),
            _ => some_text(&mut trial.rng),
        };
        let found = trial.plan_alone(words, &text);
        let wanted = Ended {
            status: Some(0),
            out: answer(words, &text).escape_ascii().to_string(),
            said: String::new(),
        };
        let shown = (words, text.escape_ascii().to_string());
        trial.same(shown, found, wanted);
    }
}
