//! A program that answers calls, and those that wait for it.

use std::time::{Duration, Instant};

use second::Answer;

use crate::batch::{number, Batch, Call, Entry};
use crate::library::Library;
use crate::programs::{Asked, Programs, Words};
use crate::show;

/// A batch takes about so long, and not many more bytes: long enough that waiting for the pipe
/// counts for little, and no longer.
const LONG: Duration = Duration::from_millis(20);
const MANY_BYTES: usize = 1 << 20;

pub struct Line {
    pub asked: Asked,
    library: Library,
    batch: Batch,
    reply: Vec<u8>,
    most_calls: usize,
}

impl Line {
    pub fn new(programs: &Programs, asked: Asked) -> Line {
        Line {
            asked,
            library: Library::new(&programs.answering(asked)),
            batch: Batch::new(),
            reply: Vec::new(),
            most_calls: 1,
        }
    }

    pub fn full(&self) -> bool {
        self.batch.calls() >= self.most_calls || self.batch.asked.len() >= MANY_BYTES
    }

    pub fn call(&mut self, entry: Entry, given: &[u64], answer: Answer) -> Call<'_> {
        self.batch.call(entry, given, answer)
    }

    /// Sends the batch, and compares what comes back with what the second program expects.
    pub fn send(&mut self) -> Result<(), String> {
        let begun = Instant::now();
        self.reply.resize(self.batch.asked.len(), 0);
        self.library.answer(&self.batch.asked, &mut self.reply)?;
        if self.reply != self.batch.expected {
            return Err(self.complaint());
        }
        self.most_calls = if begun.elapsed() < LONG {
            self.most_calls.saturating_mul(2)
        } else {
            self.most_calls.div_ceil(2)
        };
        self.batch.clear();
        Ok(())
    }

    /// Sends the last calls, and ends the program.
    pub fn end(&mut self) -> Result<(), String> {
        if self.batch.calls() > 0 {
            self.send()?;
        }
        self.library.end()
    }

    fn complaint(&self) -> String {
        let Some(call) = self.batch.differing(&self.reply) else {
            return String::from("the batch came back with another length");
        };
        let all = [&self.batch.asked, &self.reply, &self.batch.expected];
        let [asked, library, second] = all.map(|bytes| &bytes[call.clone()]);
        let shown = |entry| show::complaint(entry, asked, library, second);
        let of_words = |entry, words: Words| format!("words {words:?}\n{}", shown(entry as usize));
        match self.asked {
            Asked::Planner(words) => of_words(Entry::Plan, words),
            Asked::Why(words) => of_words(Entry::Why, words),
            Asked::Library => shown(number(asked, 0) as usize),
        }
    }
}
