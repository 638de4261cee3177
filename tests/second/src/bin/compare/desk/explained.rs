//! What the desk says with its 18: the library against the second program, and both against trying.

use second::desk::{Desk, Job};
use second::inputs::jobs;
use second::inputs::requests::{self, Request, LATEST};
use second::limits::JOBS;
use second::Answer;

use super::{open, request_alone, sequence, Lent};
use crate::seen::Seen;
use crate::trial::Trial;

/// Who is late when so many ticks start at the earliest in this place and every later job waits for
/// the one before: 0 is the request, the others are the jobs from that place on.
fn late(left: &[Job], asked: Request, place: usize, ticks: u32) -> Vec<usize> {
    let [a, d] = [asked.earliest(left, place), asked.d];
    let order = [
        &[Job {
            a,
            c: ticks,
            d,
            x: 0,
        }],
        &left[place..],
    ]
    .concat();
    let mut end = 0;
    let mut late = Vec::new();
    for (who, job) in order.iter().enumerate() {
        end = job.a.max(end) + job.c;
        if end > job.d {
            late.push(who);
        }
    }
    late
}

const NONE: &str = "no place at all";
const OWN: &str = "the request's deadline";
const EQUALS: &str = "the request's deadline on equals";
const PLACE_L: &str = "place l";
const ITSELF: &str = "the next job's deadline";
const LATER: &str = "a later job's deadline";
const FAR: &str = "a deadline far behind";
const PAST_D: &str = "the deadline of a job past d";
const TWO: &str = "two jobs at once";
const EQUAL_ROOMS: &str = "equal rooms";
const NO_ROOM: &str = "room 0";
const DROPPED: &str = "after dropping";
const LAST: &str = "the last of 64 places";

/// "the lowest place with the largest room, that room", from the table as it was before; "one tick
/// more in that place does break the deadline named", and no tick more breaks none. Notes which kind
/// it is.
pub fn hold(trial: &Trial, seen: &mut Seen, before: &Lent, asked: Request, answer: Answer) {
    if answer.number != 18 {
        return;
    }
    let left = asked.left(before.listed());
    let rooms = asked.rooms(left);
    let shown = (before, asked, answer);
    let largest = rooms.iter().copied().max().filter(|room| *room >= 0);
    let Some(room) = largest else {
        trial.same((shown, "none"), answer, Answer::refused(18));
        return seen.count(NONE.to_string());
    };
    let place = rooms.iter().take_while(|other| **other < room).count();
    let found = [answer.first, answer.second];
    trial.same((shown, "room"), found, [place as u64, room as u64]);
    let none = late(left, asked, place, room as u32);
    trial.same((shown, "late"), none, Vec::new());
    let late = late(left, asked, place, room as u32 + 1);
    let named = match (answer.third, answer.fourth as usize) {
        (1, 0) => Some(0),
        (2, job) if job >= place => Some(job - place + 1),
        _ => None,
    };
    trial.same((shown, "named"), named, late.first().copied());
    let own = answer.third == 1;
    let job = answer.fourth as usize;
    let at_l = place + 1 == rooms.len();
    for (is, kind) in [
        (own && !at_l, OWN),
        (own && !at_l && late.len() > 1, EQUALS),
        (at_l, PLACE_L),
        (!own && job == place, ITSELF),
        (!own && job > place, LATER),
        (!own && job > place + 9, FAR),
        (!own && left[job].a > asked.d, PAST_D),
        (!own && late.len() > 1, TWO),
        (
            rooms.iter().filter(|other| **other == room).count() > 1,
            EQUAL_ROOMS,
        ),
        (room == 0, NO_ROOM),
        (left.len() < before.listed().len(), DROPPED),
        (place == JOBS - 1, LAST),
    ] {
        if is {
            seen.count(kind.to_string());
        }
    }
}

/// Requests that are too long, one after the other at one table.
fn at(trial: &mut Trial, table: (Desk, Vec<Job>), seen: &mut Seen) {
    sequence(trial, Lent::new(table), 12, requests::too_long, seen);
}

/// The job that binds is far behind the place, often past the request's deadline.
pub fn far_behind(trial: &mut Trial) {
    let mut seen = Seen::default();
    for _ in trial.cases(8000) {
        let count = trial.rng.pick(&[12, 20, 40, 60, 63]);
        let table = jobs::chain(&mut trial.rng, count);
        at(trial, table, &mut seen);
    }
    seen.share(trial, &["answered 18"], [6, 1]);
    seen.share(trial, &[LATER, FAR, PAST_D], [1, 1]);
    seen.share(trial, &[TWO, OWN, PLACE_L], [1, 4]);
}

pub fn equal_rooms(trial: &mut Trial) {
    let mut seen = Seen::default();
    for _ in trial.cases(8000) {
        let count = trial.rng.pick(&[2, 3, 5, 8, 20]);
        let table = jobs::alike(&mut trial.rng, count);
        at(trial, table, &mut seen);
    }
    seen.share(trial, &[EQUAL_ROOMS], [2, 1]);
    seen.share(trial, &[ITSELF, OWN, PLACE_L, EQUALS, NO_ROOM], [1, 2]);
}

/// x is 0 of every job: it is late itself.
pub fn tight(trial: &mut Trial) {
    let mut seen = Seen::default();
    for _ in trial.cases(8000) {
        let count = trial.rng.pick(&[1, 2, 3, 8, 30]);
        let table = jobs::tight(&mut trial.rng, count);
        at(trial, table, &mut seen);
    }
    seen.share(trial, &[ITSELF, NO_ROOM], [1, 1]);
    seen.share(trial, &[OWN, PLACE_L, EQUALS], [1, 4]);
}

/// Few jobs and many deadlines: before all jobs, before t, and at and beside what binds.
pub fn about_d(trial: &mut Trial) {
    let mut seen = Seen::default();
    for _ in trial.cases(15_000) {
        let count = trial.rng.pick(&[0, 1, 2, 3, 4, 6]);
        let spread = jobs::spread(&mut trial.rng);
        let table = jobs::table(&mut trial.rng, count, spread);
        at(trial, table, &mut seen);
    }
    let kinds = [NONE, OWN, EQUALS, PLACE_L, ITSELF, LATER, NO_ROOM, DROPPED];
    seen.share(trial, &kinds, [1, 5]);
    seen.share(trial, &[TWO, EQUAL_ROOMS], [1, 20]);
}

/// 62 to 64 jobs: the last place of the table is tried too.
pub fn nearly_full(trial: &mut Trial) {
    let mut seen = Seen::default();
    for _ in trial.cases(5000) {
        let count = trial.rng.pick(&[62, 63, 63, 64]);
        let table = jobs::any(&mut trial.rng, count);
        at(trial, table, &mut seen);
    }
    seen.share(trial, &["answered 18"], [3, 1]);
    seen.share(trial, &[LAST], [1, 40]);
    seen.share(trial, &[LATER, ITSELF], [1, 5]);
    seen.share(trial, &["answered 17"], [1, 10]);
}

/// So many ticks as the room has are taken, at the place that was told; one more is refused with the
/// same words, and so is any larger budget.
pub fn and_a_tick_more(trial: &mut Trial) {
    let mut seen = Seen::default();
    for _ in trial.cases(15_000) {
        let count = trial.rng.pick(&[0, 1, 2, 3, 5, 12, 40]);
        let mut lent = Lent::new(jobs::any(&mut trial.rng, count));
        // Late tables may pass the latest deadline.
        if open(trial, &mut lent).number != 0 {
            continue;
        }
        for _ in 0..6 {
            let asked = requests::too_long(&mut trial.rng, 0, lent.listed());
            let answer = request_alone(trial, &lent, asked);
            hold(trial, &mut seen, &lent, asked, answer);
            if answer.number == 18 {
                beside(trial, &lent, asked, answer);
            }
        }
    }
    seen.share(trial, &[OWN, PLACE_L, ITSELF, LATER], [1, 4]);
    seen.share(trial, &[NONE, EQUALS, NO_ROOM], [1, 10]);
}

fn beside(trial: &mut Trial, lent: &Lent, asked: Request, refused: Answer) {
    let room = refused.second as u32;
    let mut ask = |c: u32| request_alone(trial, lent, Request { c, ..asked });
    let more = [room + 1, room + 2, LATEST].map(|more| ask(more.min(LATEST)));
    let taken = if room > 0 { Some(ask(room)) } else { None };
    trial.same((lent, asked, "more"), more, [refused; 3]);
    if let Some(taken) = taken {
        let found = (taken.number, taken.first);
        trial.same((lent, asked, "room"), found, (0, refused.first));
    }
}

/// Tables of up to two jobs, with up to two ticks before each, of budget and of slack: every time and
/// every deadline, and a budget that is too long for all.
pub fn every_small_table(trial: &mut Trial) {
    let mut seen = Seen::default();
    let ways = || (0..18).map(|way| [way % 3, way / 3 % 2 + 1, way / 6]);
    let none: Vec<Vec<[u32; 3]>> = vec![Vec::new()];
    let one = ways().map(|job| vec![job]);
    let two = ways().flat_map(|job| ways().map(move |next| vec![job, next]));
    let tables: Vec<Vec<[u32; 3]>> = none.into_iter().chain(one).chain(two).collect();
    let mut tried = 0;
    for jobs in trial.each(&tables) {
        tried += 1;
        let mut lent = Lent::new(behind_each_other(jobs));
        open(trial, &mut lent);
        for t in 0..10 {
            for d in 0..14 {
                for c in [1, 30] {
                    let asked = Request { t, c, d };
                    let answer = request_alone(trial, &lent, asked);
                    hold(trial, &mut seen, &lent, asked, answer);
                }
            }
        }
    }
    let kinds = [NONE, OWN, PLACE_L, ITSELF, LATER, EQUALS, NO_ROOM, TWO];
    // Time may have cut it short.
    for kind in kinds.into_iter().filter(|_| tried == tables.len()) {
        trial.same(kind, seen.times(kind) > 0, true);
    }
}

/// Jobs of so many ticks before them, of budget and of slack.
fn behind_each_other(jobs: &[[u32; 3]]) -> (Desk, Vec<Job>) {
    let mut table = vec![Job::default(); JOBS];
    let mut end = 0;
    for (job, [gap, c, slack]) in table.iter_mut().zip(jobs) {
        let a = end + gap;
        end = a + c;
        let d = end + slack;
        *job = Job { a, c: *c, d, x: 0 };
    }
    let count = jobs.len() as u32;
    (Desk { clock: 0, count }, table)
}

/// Time, budget and deadline of a request, and what is told.
type Told = ([u32; 3], [u64; 4]);

/// D1's jobs, whose x are 6, 4 and 8.
const D1: [[u32; 3]; 3] = [[10, 3, 20], [15, 5, 24], [30, 2, 40]];

const AT_D1: [Told; 12] = [
    // D6, a tick longer; and by an earlier deadline.
    ([25, 5, 29], [0, 4, 1, 0]),
    ([25, 4, 28], [0, 3, 1, 0]),
    ([25, 1, 25], [0, 0, 1, 0]),
    // Past d.
    ([25, 1, 24], [0, 0, 0, 0]),
    // D3's rooms are 8, 6, 18: job 2 binds from d 39 on, at 38 the request does on equals.
    ([8, 18, 37], [2, 17, 1, 0]),
    ([8, 19, 38], [2, 18, 1, 0]),
    ([8, 19, 39], [2, 18, 2, 2]),
    ([8, 1_000_000, 40], [2, 18, 2, 2]),
    // Behind all jobs.
    ([8, 20, 51], [3, 19, 1, 0]),
    // Job 1 binds, behind job 0.
    ([8, 9, 16], [0, 8, 1, 0]),
    ([8, 9, 17], [0, 8, 2, 1]),
    // Job 0 is dropped, so that job 2 is 1.
    ([13, 19, 40], [1, 18, 2, 1]),
];

/// Three jobs that can't move, two ticks before each.
const TIGHT: [[u32; 3]; 3] = [[2, 2, 4], [6, 2, 8], [10, 2, 12]];

const AT_TIGHT: [Told; 5] = [
    ([0, 3, 14], [0, 2, 2, 0]),
    ([0, 3, 2], [0, 2, 1, 0]),
    ([1, 3, 14], [1, 2, 2, 1]),
    ([2, 3, 9], [1, 2, 2, 1]),
    ([2, 1, 3], [0, 0, 2, 0]),
];

pub fn by_hand(trial: &mut Trial) {
    for (listed, told) in trial.each([(D1, &AT_D1[..]), (TIGHT, &AT_TIGHT)]) {
        let mut jobs = vec![Job::default(); JOBS];
        for (job, [a, c, d]) in jobs.iter_mut().zip(listed) {
            *job = Job { a, c, d, x: 1 };
        }
        let mut lent = Lent::new((Desk { clock: 5, count: 3 }, jobs));
        open(trial, &mut lent);
        for &([t, c, d], values) in told {
            let asked = Request { t, c, d };
            let answer = request_alone(trial, &lent, asked);
            trial.same(asked, answer, Answer::new(18, values));
        }
    }
}
