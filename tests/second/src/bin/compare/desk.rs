//! The desk: the library against the second program, call by call, and the promise over whole
//! sequences.

mod explained;
mod moves;

use second::desk::{self, Desk, Job};
use second::inputs::jobs;
use second::inputs::requests::{self, Draw, Request, LATEST};
use second::limits::JOBS;
use second::rng::Rng;
use second::Answer;

use crate::batch::{Call, Entry};
use crate::promise::Record;
use crate::seen::Seen;
use crate::trial::{Named, Trial};

pub const TRIALS: &[Named] = &[
    ("desk, sequences", sequences),
    ("desk, nearly full tables", nearly_full_tables),
    ("desk, about place l", about_place_l),
    ("desk, moves of all x", moves::of_all_x),
    ("desk, from empty to full", from_empty_to_full),
    ("desk, every small request", every_small_request),
    ("desk, 18 by hand", explained::by_hand),
    ("desk, 18 far behind", explained::far_behind),
    ("desk, 18 and equal rooms", explained::equal_rooms),
    ("desk, 18 in tight tables", explained::tight),
    ("desk, 18 about d", explained::about_d),
    ("desk, 18 in nearly full tables", explained::nearly_full),
    ("desk, 18 and a tick more", explained::and_a_tick_more),
    (
        "desk, 18 in every small table",
        explained::every_small_table,
    ),
    ("desk, openings", openings),
    ("desk, spoilt tables", spoilt_tables),
];

/// Places behind the lent ones, which nobody may touch.
const BEHIND: usize = 2;

/// All that is lent to the desk.
#[derive(Clone, Debug, PartialEq)]
struct Lent {
    desk: Desk,
    jobs: Vec<Job>,
    places: usize,
}

impl Lent {
    fn new((desk, jobs): (Desk, Vec<Job>)) -> Lent {
        let places = jobs.len();
        let mut lent = Lent { desk, jobs, places };
        lent.lend(places);
        lent
    }

    /// Lends another number of places: some of those there are, or zeros behind them.
    fn lend(&mut self, places: usize) {
        let [a, c, d, x] = [0xA5A5; 4];
        self.jobs.truncate(self.places);
        self.jobs.resize(places.max(self.places), Job::default());
        self.jobs.extend([Job { a, c, d, x }; BEHIND]);
        self.places = places;
    }

    fn listed(&self) -> &[Job] {
        let count = self.desk.count as usize;
        &self.jobs[..count.min(self.places)]
    }
}

/// Opens the desk with both programs; answer and all lent must agree.
fn open(trial: &mut Trial, lent: &mut Lent) -> Answer {
    let before = lent.clone();
    let answer = desk::open(&mut lent.desk, &mut lent.jobs[..before.places]);
    let call = trial.call(Entry::Open, &[], answer);
    lend_all(call, &before, lent);
    answer
}

fn request(trial: &mut Trial, lent: &mut Lent, request: Request) -> Answer {
    let before = lent.clone();
    let Request { t, c, d } = request;
    let answer = desk::request(&mut lent.desk, &mut lent.jobs[..before.places], t, c, d);
    let call = trial.call(Entry::Request, &[t, c, d].map(u64::from), answer);
    lend_all(call, &before, lent);
    answer
}

/// A request after which the table is lent as it was before.
fn request_alone(trial: &mut Trial, lent: &Lent, asked: Request) -> Answer {
    let mut after = lent.clone();
    let answer = request(trial, &mut after, asked);
    let mut record = Record::new(lent.listed());
    follow(trial, &mut record, [lent, &after], asked, answer);
    answer
}

/// Watches that no job is moved otherwise than it may be, and the promise.
fn follow(
    trial: &Trial,
    record: &mut Record,
    [before, after]: [&Lent; 2],
    asked: Request,
    answer: Answer,
) {
    let followed = record.follow(asked, answer, after.listed());
    trial.same((asked, before, after, "moved"), followed, true);
    trial.same((asked, before, &record, "promise"), record.kept(), true);
}

fn lend_all(call: Call, before: &Lent, after: &Lent) {
    let call = call.writes(1, &[before.desk], &[after.desk]);
    call.writes(before.places, &before.jobs, &after.jobs);
}

/// Notes the answer, and of a request that came to place l where that was and how it came out.
fn note(seen: &mut Seen, before: &Lent, asked: Request, answer: Answer) {
    seen.count("requests".to_string());
    seen.count(format!("answered {}", answer.number));
    if answer.number == 18 && asked.d < asked.t {
        seen.count("d below t".to_string());
    }
    let left = asked.left(before.listed());
    let l = asked.l(left);
    let Some(outcome) = outcome_at(l, left, asked, answer) else {
        return;
    };
    let place = match (l, left.len() - l) {
        (0, 0) => "on an empty table",
        (0, _) => "before all jobs",
        (_, 0) => "behind all jobs",
        _ => "between two jobs",
    };
    seen.count(format!("{outcome} {place}"));
    if l == JOBS - 1 {
        seen.count(format!("{outcome} as the last of 64"));
    }
    if asked.d == LATEST {
        seen.count(format!("{outcome} by 1,000,000"));
    }
}

/// How place l came out, unless a lower place or number did, or it was far from fitting.
fn outcome_at(l: usize, left: &[Job], asked: Request, answer: Answer) -> Option<&'static str> {
    let taken = answer.number == 0 && answer.first as usize == l;
    if !taken && answer.number != 18 {
        return None;
    }
    let end = asked.earliest(left, l) + asked.c;
    match (taken, end.abs_diff(asked.d)) {
        (true, 0) => Some("just fits"),
        (true, _) => Some("fits"),
        (false, 1) => Some("misses by a tick"),
        _ => None,
    }
}

/// So many requests after one opening, with the promise watched over all of them.
fn sequence(trial: &mut Trial, mut lent: Lent, requests: usize, draw: Draw, seen: &mut Seen) {
    if open(trial, &mut lent).number != 0 {
        return;
    }
    let mut record = Record::new(lent.listed());
    for _ in 0..requests {
        let asked = draw(&mut trial.rng, lent.desk.clock, lent.listed());
        let before = lent.clone();
        let answer = request(trial, &mut lent, asked);
        note(seen, &before, asked, answer);
        explained::hold(trial, seen, &before, asked, answer);
        follow(trial, &mut record, [&before, &lent], asked, answer);
        moves::note(seen, [&before, &lent], asked, answer);
        // Nothing ends after the latest time, so there is little more to see.
        if lent.desk.clock == LATEST && trial.rng.one_in(2) {
            return;
        }
    }
}

fn some_table(rng: &mut Rng, count: usize) -> Lent {
    let spread = jobs::spread(rng);
    Lent::new(jobs::table(rng, count, spread))
}

fn sequences(trial: &mut Trial) {
    let mut seen = Seen::default();
    for _ in trial.cases(20_000) {
        let count = trial.rng.pick(&[0, 1, 2, 3, 5, 8, 20, 40]);
        let lent = some_table(&mut trial.rng, count);
        sequence(trial, lent, 30, requests::any, &mut seen);
    }
    seen.share(trial, &["requests"], [20, 1]);
    seen.share(trial, &["answered 0", "answered 16", "answered 18"], [2, 1]);
    seen.share(trial, &["answered 14", "answered 15"], [1, 5]);
}

fn nearly_full_tables(trial: &mut Trial) {
    let mut seen = Seen::default();
    for _ in trial.cases(6000) {
        let count = trial.rng.pick(&[60, 62, 63, 64]);
        let lent = some_table(&mut trial.rng, count);
        sequence(trial, lent, 20, requests::any, &mut seen);
    }
    seen.share(trial, &["answered 0"], [2, 1]);
    seen.share(trial, &["answered 17"], [1, 12]);
}

fn about_place_l(trial: &mut Trial) {
    let mut seen = Seen::default();
    for _ in trial.cases(12_000) {
        let count = trial.rng.pick(&[0, 1, 2, 3, 8, 62, 63, 63, 64]);
        let lent = Lent::new(jobs::about_a_gap(&mut trial.rng, count));
        sequence(trial, lent, 8, requests::about_place_l, &mut seen);
    }
    for (place, share) in [
        ("on an empty table", [1, 50]),
        ("before all jobs", [1, 50]),
        ("between two jobs", [1, 50]),
        ("behind all jobs", [1, 50]),
        ("by 1,000,000", [1, 100]),
        ("as the last of 64", [1, 200]),
    ] {
        let outcomes = ["fits", "just fits", "misses by a tick"];
        let kinds = outcomes.map(|outcome| format!("{outcome} {place}"));
        seen.share(trial, &kinds, share);
    }
    seen.share(trial, &["answered 17", "d below t"], [1, 20]);
}

fn from_empty_to_full(trial: &mut Trial) {
    for _ in trial.cases(1000) {
        let mut seen = Seen::default();
        let lent = some_table(&mut trial.rng, 0);
        sequence(trial, lent, 100, requests::growing, &mut seen);
        let was_full = seen.times("answered 17") > 0;
        trial.same("100 requests from an empty table", was_full, true);
    }
}

fn every_small_request(trial: &mut Trial) {
    for _ in trial.cases(60) {
        let mut spread = jobs::spread(&mut trial.rng);
        spread.from = 0;
        let count = trial.rng.between(0, 4);
        let mut lent = Lent::new(jobs::table(&mut trial.rng, count, spread));
        open(trial, &mut lent);
        for t in trial.each(0..14) {
            for c in 0..9 {
                for d in 0..24 {
                    request_alone(trial, &lent, Request { t, c, d });
                }
            }
        }
    }
}

fn openings(trial: &mut Trial) {
    for _ in trial.cases(60_000) {
        let rng = &mut trial.rng;
        let spread = jobs::spread(rng);
        let count = rng.pick(&[0, 1, 2, 3, 63, 64]);
        let (mut desk, mut jobs) = jobs::table(rng, count, spread);
        for _ in 0..rng.pick(&[0, 1, 1, 2]) {
            jobs::spoil(rng, &mut desk, &mut jobs);
        }
        let mut lent = Lent::new((desk, jobs));
        if rng.one_in(10) {
            lent.lend(rng.pick(&[0, 1, 63, 65, 128]));
        }
        open(trial, &mut lent);
    }
}

/// 13 comes before all other refusals, and changes nothing.
fn spoilt_tables(trial: &mut Trial) {
    let mut refused = 0;
    for _ in trial.cases(80_000) {
        let rng = &mut trial.rng;
        let spread = jobs::spread(rng);
        let count = rng.pick(&[0, 1, 2, 3, 10, 63, 64]);
        let (mut desk, mut jobs) = jobs::table(rng, count, spread);
        desk::open(&mut desk, &mut jobs);
        let good = Lent::new((desk, jobs.clone()));
        let mut asked = requests::within_limits(rng, good.desk.clock, good.listed());
        for _ in 0..rng.pick(&[1, 1, 2]) {
            jobs::spoil(rng, &mut desk, &mut jobs);
        }
        if rng.one_in(4) {
            asked = requests::at_a_limit(rng, desk.clock, asked);
        }
        let mut lent = Lent::new((desk, jobs));
        if rng.one_in(10) {
            lent.lend(rng.pick(&[0, 1, 63, 65, 128]));
        }
        refused += u64::from(request(trial, &mut lent, asked).number == 13);
    }
    trial.share("refused with 13", refused, [3, 8]);
}
