//! "A request that no lower number refuses is then taken exactly when some place in the order,
//! started at t or later, with earlier jobs unmoved and later ones only delayed, keeps every
//! deadline." (document 02, ask 1): by trying every place and every start, without rooms and
//! flexibilities. And so what 18 says of the room (ask 7): by trying every budget at every place.

use std::collections::BTreeMap;

use crate::answer::Answer;
use crate::desk::{open, request, Desk, Job};
use crate::inputs::requests::Request;
use crate::limits::JOBS;
use crate::rng::Rng;

/// Start, budget and deadline of each job.
type Table = Vec<[u32; 3]>;

/// How often requests ended in which way, so that a test can show that it came to all of them.
type Ends = BTreeMap<&'static str, u64>;

/// The request as a job that may start at t or later.
fn released(asked: Request) -> Job {
    let Request { t, c, d } = asked;
    Job { a: t, c, d, x: 0 }
}

/// Whether the jobs can run in this order, the first one not before `free`: every start is tried
/// that is not below the job's own, doesn't overlap the job before and keeps the job's deadline.
fn some_starts(free: u32, jobs: &[Job]) -> bool {
    let [job, rest @ ..] = jobs else {
        return true;
    };
    (free.max(job.a)..)
        .take_while(|start| start + job.c <= job.d)
        .any(|start| some_starts(start + job.c, rest))
}

/// Whether some place in the order keeps every deadline.
fn some_place(left: &[Job], asked: Request) -> bool {
    (0..=left.len()).any(|place| {
        let (unmoved, later) = left.split_at(place);
        let free = unmoved.last().map_or(0, Job::end);
        some_starts(free, &[&[released(asked)], later].concat())
    })
}

/// Who is late when a request of so many ticks starts at the earliest in this place and every later
/// job waits for the one before: first of all the request itself, which is 0, then the later jobs.
fn first_late(left: &[Job], asked: Request, place: usize, ticks: u32) -> Option<usize> {
    let a = asked.earliest(left, place);
    let request = Job {
        a,
        c: ticks,
        d: asked.d,
        x: 0,
    };
    let mut end = 0;
    [&[request], &left[place..]]
        .concat()
        .iter()
        .position(|job| {
            end = job.a.max(end) + job.c;
            end > job.d
        })
}

/// What 18 says: of all places the lowest at which the most ticks, or none, make nobody late, and
/// who is late with one more.
fn explained(left: &[Job], asked: Request) -> Answer {
    let mut most = None;
    for place in 0..=left.len() {
        let late = |ticks: u32| first_late(left, asked, place, ticks);
        let good = (0..).take_while(|ticks| late(*ticks).is_none()).count() as u32;
        if good > most.map_or(0, |(_, other)| other) {
            most = Some((place, good));
        }
    }
    let Some((place, good)) = most else {
        return Answer::refused(18);
    };
    let room = good as usize - 1;
    let [which, job] = match first_late(left, asked, place, good) {
        None | Some(0) => [1, 0],
        Some(later) => [2, place + later - 1],
    };
    Answer::new(18, [place, room, which, job].map(|number| number as u64))
}

/// Whether a table is one that the sentence speaks of, with the request at this place.
fn keeps_all(left: &[Job], asked: Request, place: usize, table: &[Job]) -> bool {
    let mut order = left.to_vec();
    order.insert(place, released(asked));
    let same = |(was, now): (&Job, &Job)| (was.c, was.d) == (now.c, now.d) && was.a <= now.a;
    let unmoved = |(was, now): (&Job, &Job)| was.a == now.a;
    order.len() == table.len()
        && order.iter().zip(table).all(same)
        && order.iter().zip(table).take(place).all(unmoved)
        && table.iter().all(|job| job.end() <= job.d)
        && table.windows(2).all(|pair| pair[0].end() <= pair[1].a)
}

fn opened(listed: &[[u32; 3]]) -> (Desk, [Job; JOBS]) {
    let count = listed.len() as u32;
    let mut desk = Desk { clock: 0, count };
    let mut jobs = [Job::default(); JOBS];
    for (job, &[a, c, d]) in jobs.iter_mut().zip(listed) {
        *job = Job { a, c, d, x: 0 };
    }
    assert_eq!(open(&mut desk, &mut jobs).number, 0, "{listed:?}");
    (desk, jobs)
}

/// Asks, and compares with trying; the start is the earliest that its place allows. Of the lower
/// numbers only 16 can come here.
fn ask(listed: &[[u32; 3]], asked: Request, ends: &mut Ends) {
    let Request { t, c, d } = asked;
    let (mut desk, mut jobs) = opened(listed);
    let left: Vec<Job> = jobs.iter().filter(|job| job.end() > t).copied().collect();
    let running = left.iter().any(|job| job.a < t);
    let wanted = match some_place(&left, asked) {
        _ if running => 16,
        true => 0,
        false => 18,
    };
    let answer = request(&mut desk, &mut jobs, t, c, d);
    assert_eq!(answer.number, wanted, "{listed:?} {asked:?}");
    let place = answer.first as usize;
    if wanted == 0 {
        let table = &jobs[..desk.count as usize];
        let kept = keeps_all(&left, asked, place, table);
        assert!(kept, "{listed:?} {asked:?} {table:?}");
        let start = u64::from(asked.earliest(&left, place));
        assert_eq!(answer.second, start, "{listed:?} {asked:?}");
    }
    if wanted == 18 {
        let wanted = explained(&left, asked);
        assert_eq!(answer, wanted, "{listed:?} {asked:?}");
    }
    *ends.entry(way(answer, &left, d)).or_default() += 1;
}

/// The way in which a request ended.
fn way(answer: Answer, left: &[Job], d: u32) -> &'static str {
    let place = answer.first as usize;
    let itself = answer.fourth == answer.first;
    match (answer.number, left.get(place)) {
        (16, _) => "busy",
        (18, _) => match answer.third {
            0 => "no place at all",
            1 if answer.second == 0 => "no room by d",
            1 => "too little room by d",
            _ if itself => "too little room before a job",
            _ => "too little room before a later job",
        },
        (_, Some(next)) if next.a <= d => "before a job that starts by d",
        (_, Some(_)) => "before a job that starts past d",
        (_, None) if place > 0 => "behind all jobs",
        _ => "on an empty table",
    }
}

fn all_seen(ends: &Ends, often: u64) {
    for way in [
        "busy",
        "no place at all",
        "no room by d",
        "too little room by d",
        "too little room before a job",
        "too little room before a later job",
        "before a job that starts by d",
        "before a job that starts past d",
        "behind all jobs",
        "on an empty table",
    ] {
        assert!(ends.get(way) > Some(&often), "{way}: {ends:?}");
    }
}

/// Each table with one job more behind it, in all ways: up to two ticks before the job, of budget
/// and of slack.
fn longer(tables: &[Table]) -> Vec<Table> {
    let ways = (0..18).map(|way| [way % 3, way / 3 % 2 + 1, way / 6]);
    let mut all = Vec::new();
    for table in tables {
        let free = table.last().map_or(0, |[a, c, _]| a + c);
        all.extend(ways.clone().map(|[gap, c, slack]| {
            let a = free + gap;
            [&table[..], &[[a, c, a + c + slack]]].concat()
        }));
    }
    all
}

/// All such tables of up to two jobs.
fn small_tables() -> Vec<Table> {
    let empty = vec![Table::new()];
    let one = longer(&empty);
    let two = longer(&one);
    [empty, one, two].concat()
}

#[test]
fn every_request_at_every_small_table() {
    let mut ends = Ends::new();
    for table in small_tables() {
        for t in 0..10 {
            for c in 1..6 {
                for d in 0..14 {
                    ask(&table, Request { t, c, d }, &mut ends);
                }
            }
        }
    }
    all_seen(&ends, 200);
}

fn some_table(rng: &mut Rng) -> Table {
    let mut end = 0;
    let mut table = Table::new();
    for _ in 0..rng.between(0, 4) {
        let [gap, slack] = [6, 8].map(|most| rng.between(0, most) as u32);
        let c = rng.between(1, 5) as u32;
        let a = end + gap;
        end = a + c;
        table.push([a, c, end + slack]);
    }
    table
}

/// Requests whose deadline lies at or beside the end that some place gives, or anywhere.
fn some_request(rng: &mut Rng, table: &[[u32; 3]]) -> Request {
    let c = rng.between(1, 9) as u32;
    let t = rng.between(0, 12) as u32;
    let ends = table.iter().map(|[a, c, _]| a + c);
    let starts: Vec<u32> = ends.chain([t]).collect();
    let beside = rng.pick(&[0, 1, 1, 2]);
    let d = match rng.between(0, 2) {
        0 => rng.between(0, 45) as u32,
        _ => rng.pick(&starts) + c + beside - 1,
    };
    Request { t, c, d }
}

#[test]
fn some_requests_at_larger_tables() {
    let mut rng = Rng::new(5);
    let mut ends = Ends::new();
    for _ in 0..5000 {
        let table = some_table(&mut rng);
        for _ in 0..6 {
            ask(&table, some_request(&mut rng, &table), &mut ends);
        }
    }
    all_seen(&ends, 200);
}
