//! How far a trial came, and until when it may go on.

use std::cell::Cell;
use std::rc::Rc;
use std::time::Instant;

pub struct Progress {
    until: Option<Instant>,
    ran: Cell<u64>,
    cut: Cell<bool>,
}

impl Progress {
    pub fn new(until: Option<Instant>) -> Rc<Progress> {
        Rc::new(Progress {
            until,
            ran: Cell::new(0),
            cut: Cell::new(false),
        })
    }

    /// The cases that ran.
    pub fn ran(&self) -> u64 {
        self.ran.get()
    }

    /// Whether there were more cases than time.
    pub fn cut(&self) -> bool {
        self.cut.get()
    }

    fn over(&self) -> bool {
        self.until.is_some_and(|until| Instant::now() >= until)
    }
}

/// Cases up to the last, or to the end of the time; the first is always tried.
pub struct InTime<I> {
    cases: I,
    begun: bool,
    progress: Rc<Progress>,
}

impl<I> InTime<I> {
    pub fn new(cases: I, progress: &Rc<Progress>) -> InTime<I> {
        InTime {
            cases,
            begun: false,
            progress: Rc::clone(progress),
        }
    }
}

impl<I: Iterator> Iterator for InTime<I> {
    type Item = I::Item;

    fn next(&mut self) -> Option<I::Item> {
        let case = self.cases.next()?;
        if self.begun && self.progress.over() {
            self.progress.cut.set(true);
            return None;
        }
        self.begun = true;
        self.progress.ran.set(self.progress.ran() + 1);
        Some(case)
    }
}
