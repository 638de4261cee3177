//! What every comparison needs: the seed, the volume, the calls, and the complaint.

use std::fmt::Debug;
use std::ops::Range;
use std::panic;
use std::rc::Rc;
use std::time::Instant;

use second::rng::Rng;
use second::Answer;

use crate::batch::{Call, Entry};
use crate::line::Line;
use crate::programs::{Asked, Ended, Programs, Words};
use crate::progress::{InTime, Progress};
use crate::settings::Settings;
use crate::show::Tally;

/// A trial and its name.
pub type Named = (&'static str, fn(&mut Trial));

/// Of fewer cases a share says little.
const FEW_CASES: u64 = 500;

pub struct Trial {
    name: &'static str,
    seed: u64,
    times: u64,
    progress: Rc<Progress>,
    shares_left_out: bool,
    programs: Programs,
    /// The library, or a program for each list of words; none before its first call.
    lines: Vec<Line>,
    tally: Tally,
    pub rng: Rng,
}

/// What a trial that passed came to.
pub struct Passed {
    pub tally: Tally,
    /// What wasn't done, and why.
    pub left_out: String,
}

impl Trial {
    /// Each name draws its own numbers from the seed.
    pub fn new(name: &'static str, settings: &Settings, until: Option<Instant>) -> Trial {
        let seed = settings.seed;
        let mix = |sum: u64, byte: u8| sum.wrapping_mul(31).wrapping_add(u64::from(byte));
        Trial {
            name,
            seed,
            times: settings.times,
            progress: Progress::new(until),
            shares_left_out: false,
            programs: settings.programs.clone(),
            lines: Vec::new(),
            tally: Tally::default(),
            rng: Rng::new(name.bytes().fold(seed, mix)),
        }
    }

    /// So many cases, as far as time allows.
    pub fn cases(&self, few: u64) -> InTime<Range<u64>> {
        self.each(0..few.saturating_mul(self.times))
    }

    /// All of these, as far as time allows.
    pub fn each<I: IntoIterator>(&self, cases: I) -> InTime<I::IntoIter> {
        InTime::new(cases.into_iter(), &self.progress)
    }

    /// A call of the library, with the answer that the second program gave. What is lent is to be
    /// added.
    pub fn call(&mut self, entry: Entry, given: &[u64], answer: Answer) -> Call<'_> {
        self.call_of(Asked::Library, entry, given, answer)
    }

    /// The same of the planner with these words.
    pub fn plan(&mut self, words: Words, given: &[u64], answer: Answer) -> Call<'_> {
        self.call_of(Asked::Planner(words), Entry::Plan, given, answer)
    }

    /// The same of the page as text.
    pub fn why(&mut self, words: Words, given: &[u64], answer: Answer) -> Call<'_> {
        self.call_of(Asked::Why(words), Entry::Why, given, answer)
    }

    fn call_of(&mut self, asked: Asked, entry: Entry, given: &[u64], answer: Answer) -> Call<'_> {
        let at = self.line(asked);
        if self.lines[at].full() {
            let sent = self.lines[at].send();
            sent.unwrap_or_else(|why| self.fail(&why));
        }
        self.tally[entry as usize] += 1;
        self.lines[at].call(entry, given, answer)
    }

    fn line(&mut self, asked: Asked) -> usize {
        let there = self.lines.iter().position(|line| line.asked == asked);
        there.unwrap_or_else(|| {
            self.lines.push(Line::new(&self.programs, asked));
            self.lines.len() - 1
        })
    }

    /// Runs the planner by itself.
    pub fn plan_alone(&mut self, words: Words, text: &[u8]) -> Ended {
        self.alone(Asked::Planner(words), Entry::Plan, text)
    }

    /// Runs the page as text by itself.
    pub fn why_alone(&mut self, words: Words, file: &[u8]) -> Ended {
        self.alone(Asked::Why(words), Entry::Why, file)
    }

    fn alone(&mut self, asked: Asked, entry: Entry, text: &[u8]) -> Ended {
        self.tally[entry as usize] += 1;
        let ended = self.programs.alone(asked, text);
        ended.unwrap_or_else(|why| self.fail(&why))
    }

    /// Ends the trial with a complaint.
    pub fn fail(&self, why: &str) -> ! {
        eprintln!("{}: seed {}\n{why}\n", self.name, self.seed);
        panic::resume_unwind(Box::new(()))
    }

    /// What has to hold of values that the library and the second program agree on.
    pub fn same<I: Debug, O: Debug + PartialEq>(&self, input: I, found: O, wanted: O) {
        if found != wanted {
            self.fail(&format!(
                "input {input:?}\nfound {found:?}\nwanted {wanted:?}"
            ));
        }
    }

    /// More than `few` of them in `many` cases.
    pub fn share(&mut self, what: &str, found: u64, [few, many]: [u64; 2]) {
        let cases = self.progress.ran();
        if cases < FEW_CASES {
            self.shares_left_out = true;
            return;
        }
        if found * many <= few * cases {
            self.fail(&format!("{what}: {found} in {cases} cases, too few"));
        }
    }

    /// Sends the last calls.
    pub fn end(mut self) -> Passed {
        let ended = self.lines.iter_mut().try_for_each(Line::end);
        ended.unwrap_or_else(|why| self.fail(&why));
        let cases = self.progress.ran();
        let mut left_out = String::new();
        if self.progress.cut() {
            left_out += &format!(", cut short by time after {cases} cases");
        }
        if self.shares_left_out {
            left_out += ", too few cases for its shares";
        }
        Passed {
            tally: self.tally,
            left_out,
        }
    }
}
