//! A text that is asked for, and what it is like.

use second::inputs::files::get;
use second::{why, Answer};

use crate::programs::Words;
use crate::seen::Seen;
use crate::trial::Trial;

const PATTERN: u8 = 0xA5;
/// Room for some lines, so that a complaint shows them where there are too many.
const BEHIND: usize = 256;

/// All at once: more bytes than any file or text has.
pub const WHOLE: u64 = 1 << 20;

/// "a page as text, in bytes": from 10 to 524,672.
const BYTES: [usize; 2] = [10, 524_672];

/// The places that trials ask for. A process of the program is started for each that a trial comes
/// to.
const PLACES: [Words; 18] = [
    &["0"],
    &["1"],
    &["2"],
    &["3"],
    &["4"],
    &["5"],
    &["6"],
    &["7"],
    &["8"],
    &["9"],
    &["10"],
    &["13"],
    &["60"],
    &["100"],
    &["126"],
    &["127"],
    &["128"],
    &["129"],
];

/// Other ways to name places 1 and 2.
pub const ZEROS_IN_FRONT: [Words; 2] = [&["00001"], &["02"]];

/// Words that name no task; of the first the last five digits would, of the second the first five.
pub const NO_TASK: [Words; 11] = [
    &["000001"],
    &["000010"],
    &[],
    &["1", "1"],
    &["1", ""],
    &[""],
    &["x"],
    &["1x"],
    &["-1"],
    &["+1"],
    &["65537"],
];

/// The words for a place that trials ask for.
pub fn naming(trial: &Trial, place: usize) -> Words {
    let named = |words: &Words| why::place(words) == place as u64;
    let found = PLACES.into_iter().find(named);
    found.unwrap_or_else(|| trial.fail(&format!("there are no words for place {place}")))
}

/// Gives words and file to both programs; reads and writes may come to only so many bytes at a time.
pub fn compare_in_pieces(
    trial: &mut Trial,
    words: Words,
    file: &[u8],
    read: u64,
    written: u64,
) -> String {
    let text = why::text(why::place(words), file);
    let [fewest, most] = BYTES;
    let within = (fewest..=most).contains(&text.len());
    trial.same((words, file, text.len()), within, true);
    let before = vec![PATTERN; text.len() + BEHIND];
    let after = [text.as_bytes(), &[PATTERN; BEHIND]].concat();
    let answer = Answer::good([text.len() as u64, 0, 0, 0]);
    let call = trial.why(words, &[read, written], answer);
    call.reads(file).writes(before.len(), &before, &after);
    text
}

pub fn compare(trial: &mut Trial, words: Words, file: &[u8]) -> String {
    let [read, written] = [0; 2].map(|_| trial.rng.pick(&[WHOLE, WHOLE, WHOLE, 1, 7, 1000]));
    compare_in_pieces(trial, words, file, read, written)
}

/// The same, with a note of what the text is like.
pub fn judge(trial: &mut Trial, words: Words, file: &[u8], seen: &mut Seen) -> String {
    let text = compare(trial, words, file);
    note(seen, &text, file);
    text
}

/// A line of a failing task's text.
pub struct Line {
    /// The four in columns.
    pub numbers: [u64; 4],
    pub start: u64,
    pub end: u64,
    pub marked: bool,
}

impl Line {
    fn short(&self) -> u64 {
        self.numbers[3]
    }
}

/// The lines with points, of a text that has them.
pub fn lines(text: &str) -> Vec<Line> {
    let points = text.lines().skip(2);
    points.filter_map(line).collect()
}

/// None of the last line.
fn line(text: &str) -> Option<Line> {
    let (numbers, rest) = text.split_at_checked(32)?;
    let mut numbers = numbers
        .split_whitespace()
        .map_while(|word| word.parse().ok());
    let mut next = || numbers.next();
    let numbers = [next()?, next()?, next()?, next()?];
    let marked = rest.ends_with("  <- tightest");
    let (start, end) = rest.trim_end_matches("  <- tightest").split_once(" to ")?;
    Some(Line {
        numbers,
        start: start.trim().parse().ok()?,
        end: end.parse().ok()?,
        marked,
    })
}

pub const JUST: &str = "nothing to spare";
pub const SEVERAL: &str = "several points";
pub const MANY: &str = "many points";
pub const EQUAL: &str = "equal shortages";
pub const WITHIN: &str = "the mark between others";
pub const MARKED_LAST: &str = "the mark on the last of several";
pub const LATER: &str = "a start above 0";
pub const LAST_TICK: &str = "a start at the frame's last tick";
pub const PAST: &str = "an end past the frame";
pub const AT_THE_END: &str = "an end at the frame's last tick";

/// A refusal's line, a pass, or a fail and what its lines are like.
pub fn note(seen: &mut Seen, text: &str, file: &[u8]) {
    let first = text.lines().next().unwrap_or_default();
    if first.starts_with("refused ") {
        return seen.count(first.to_string());
    }
    if first.ends_with(" passes") {
        seen.count("pass".to_string());
        if text.ends_with(": 0 to spare\n") {
            seen.count(JUST.to_string());
        }
        return;
    }
    let frame = u64::from(get(file, 2));
    let lines = lines(text);
    let last = lines.len() - 1;
    let marked = lines.iter().position(|line| line.marked).unwrap_or(last);
    let equal = |line: &&Line| line.short() == lines[marked].short();
    for (is, how) in [
        (true, "fail"),
        (last > 0, SEVERAL),
        (last > 30, MANY),
        (lines.iter().filter(equal).count() > 1, EQUAL),
        (0 < marked && marked < last, WITHIN),
        (0 < last && marked == last, MARKED_LAST),
        (lines.iter().any(|line| line.start > 0), LATER),
        (
            frame > 1 && lines.iter().any(|line| line.start + 1 == frame),
            LAST_TICK,
        ),
        (lines.iter().any(|line| line.end >= frame), PAST),
        (lines.iter().any(|line| line.end + 1 == frame), AT_THE_END),
    ] {
        if is {
            seen.count(how.to_string());
        }
    }
    note_digits(seen, &lines);
}

/// The kind of a text that has a number of so many digits.
pub fn digits(what: &str, count: usize) -> String {
    format!("{what} of {count} digits")
}

pub const COLUMNS: [&str; 4] = ["point", "needs", "has", "short"];

/// How many digits the numbers of each column have, each once.
fn note_digits(seen: &mut Seen, lines: &[Line]) {
    for (column, what) in COLUMNS.iter().enumerate() {
        let numbers = lines.iter().map(|line| line.numbers[column]);
        let mut counts: Vec<usize> = numbers.map(|number| number.to_string().len()).collect();
        counts.sort_unstable();
        counts.dedup();
        for count in counts {
            seen.count(digits(what, count));
        }
    }
}
