//! Calls one behind the other, twice: as they are asked, and as the second program expects them
//! back. Their shape is told in tests/c/batch.h.

use std::ops::Range;

use second::desk::{Desk, Job};
use second::Answer;

/// The library's entries, by the numbers they have in a batch, and the programs.
#[derive(Clone, Copy)]
pub enum Entry {
    Wants,
    Held,
    Least,
    Curve,
    Check,
    Build,
    Verdict,
    Plain,
    Page,
    CountsFill,
    CountsHeld,
    CountsHeldMany,
    CountsChange,
    Read,
    Section,
    Write,
    List,
    Open,
    Request,
    Plan,
    Why,
}

impl Entry {
    /// A run of either program is the same in a batch: which of them it is, the process says.
    fn number(self) -> u64 {
        match self {
            Entry::Why => Entry::Plan as u64,
            entry => entry as u64,
        }
    }
}

/// So many plain numbers stand in each call; those that it isn't given are 0.
const PLAIN_NUMBERS: usize = 4;

/// The answer's number and its five values.
pub const ANSWER_NUMBERS: usize = 6;

/// The numbers of a call: entry, given, answer, and how many slices.
pub const GIVEN: usize = 8;
pub const ANSWER: usize = GIVEN + PLAIN_NUMBERS * 8;
pub const SLICES: usize = ANSWER + ANSWER_NUMBERS * 8;
pub const HEAD: usize = SLICES + 8;

/// What can be lent.
pub trait Element: Sized {
    const WIDTH: usize;
    fn put(elements: &[Self], bytes: &mut Vec<u8>);
}

impl Element for u8 {
    const WIDTH: usize = 1;
    fn put(elements: &[u8], bytes: &mut Vec<u8>) {
        bytes.extend_from_slice(elements);
    }
}

impl Element for u16 {
    const WIDTH: usize = 2;
    fn put(elements: &[u16], bytes: &mut Vec<u8>) {
        bytes.extend(elements.iter().flat_map(|number| number.to_le_bytes()));
    }
}

impl Element for u32 {
    const WIDTH: usize = 4;
    fn put(elements: &[u32], bytes: &mut Vec<u8>) {
        bytes.extend(elements.iter().flat_map(|number| number.to_le_bytes()));
    }
}

impl Element for Desk {
    const WIDTH: usize = 8;
    fn put(elements: &[Desk], bytes: &mut Vec<u8>) {
        for desk in elements {
            u32::put(&[desk.clock, desk.count], bytes);
        }
    }
}

impl Element for Job {
    const WIDTH: usize = 16;
    fn put(elements: &[Job], bytes: &mut Vec<u8>) {
        for job in elements {
            u32::put(&[job.a, job.c, job.d, job.x], bytes);
        }
    }
}

fn put_number(number: u64, bytes: &mut Vec<u8>) {
    bytes.extend(number.to_le_bytes());
}

/// The number of 8 bytes at a place.
pub fn number(bytes: &[u8], at: usize) -> u64 {
    let mut number = [0; 8];
    number.copy_from_slice(&bytes[at..at + 8]);
    u64::from_le_bytes(number)
}

/// What stands in the answer's place before: nothing that a call could answer.
const UNANSWERED: Answer = Answer {
    number: u64::MAX,
    first: u64::MAX,
    second: u64::MAX,
    third: u64::MAX,
    fourth: u64::MAX,
    fifth: u64::MAX,
};

/// A batch begins with its length, which stands in both from the first.
pub struct Batch {
    pub asked: Vec<u8>,
    pub expected: Vec<u8>,
    /// Where each call starts.
    starts: Vec<usize>,
}

impl Batch {
    pub fn new() -> Batch {
        Batch {
            asked: vec![0; 8],
            expected: vec![0; 8],
            starts: Vec::new(),
        }
    }

    pub fn calls(&self) -> usize {
        self.starts.len()
    }

    /// Writes down a call that lends nothing yet.
    pub fn call(&mut self, entry: Entry, given: &[u64], answer: Answer) -> Call<'_> {
        let mut numbers = [0; PLAIN_NUMBERS];
        numbers[..given.len()].copy_from_slice(given);
        self.starts.push(self.asked.len());
        for (bytes, answer) in [(&mut self.asked, UNANSWERED), (&mut self.expected, answer)] {
            put_number(entry.number(), bytes);
            let rest = numbers.into_iter().chain(answer.numbers());
            rest.for_each(|number| put_number(number, bytes));
            put_number(0, bytes);
        }
        self.say_length();
        Call { batch: self }
    }

    fn say_length(&mut self) {
        let length = (self.asked.len() as u64 - 8).to_le_bytes();
        self.asked[..8].copy_from_slice(&length);
        self.expected[..8].copy_from_slice(&length);
    }

    /// Where the first call stands that came back otherwise than expected.
    pub fn differing(&self, reply: &[u8]) -> Option<Range<usize>> {
        let ends = self.starts[1..].iter().copied().chain([self.asked.len()]);
        let mut calls = self.starts.iter().zip(ends).map(|(&from, to)| from..to);
        calls.find(|call| reply[call.clone()] != self.expected[call.clone()])
    }

    pub fn clear(&mut self) {
        self.asked.truncate(8);
        self.expected.truncate(8);
        self.starts.clear();
    }
}

/// The last call of a batch, to which slices are lent.
pub struct Call<'a> {
    batch: &'a mut Batch,
}

impl Call<'_> {
    /// Lends what must stay as it is.
    pub fn reads<T: Element>(self, all: &[T]) -> Self {
        self.writes(all.len(), all, all)
    }

    /// Lends the first so many elements. What stands behind them is there to be left alone.
    pub fn writes<T: Element>(self, lent: usize, before: &[T], after: &[T]) -> Self {
        let start = self.batch.starts[self.batch.starts.len() - 1];
        let slices = start + SLICES;
        for (bytes, elements) in [
            (&mut self.batch.asked, before),
            (&mut self.batch.expected, after),
        ] {
            let length = T::WIDTH * elements.len();
            let said = [lent, T::WIDTH, length].map(|number| number as u64);
            said.into_iter()
                .for_each(|number| put_number(number, bytes));
            T::put(elements, bytes);
            bytes.resize(bytes.len().next_multiple_of(8), 0);
            bytes[slices] += 1;
        }
        self.batch.say_length();
        self
    }
}
