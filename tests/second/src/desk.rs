//! "The desk" of document 01, with asks 1, 7 and 8 of document 02: place l is tried too, 18 says
//! what room there is, and "Refusal 19 goes."

use crate::answer::Answer;
use crate::explain;
use crate::limits::{JOBS, TIME};

/// A job record as lent.
#[repr(C)]
#[derive(Clone, Copy, Debug, Default, PartialEq, Eq)]
pub struct Job {
    pub a: u32,
    pub c: u32,
    pub d: u32,
    pub x: u32,
}

impl Job {
    /// Of a job by the rules: of any two numbers the sum might not fit.
    pub fn end(&self) -> u32 {
        self.a + self.c
    }
}

/// "the desk's clock and job count in one small record".
#[repr(C)]
#[derive(Clone, Copy, Debug, Default, PartialEq, Eq)]
pub struct Desk {
    pub clock: u32,
    pub count: u32,
}

/// A listed job, in numbers wide enough for every sum and difference of the rules.
#[derive(Clone, Copy, Debug, PartialEq, Eq)]
pub(crate) struct Listed {
    pub a: i64,
    pub c: i64,
    pub d: i64,
    pub x: i64,
}

impl Listed {
    pub fn end(&self) -> i64 {
        self.a + self.c
    }
}

/// "Opening takes any x of a listed job and any clock, works x out and sets the clock to 0."
pub fn open(desk: &mut Desk, jobs: &mut [Job]) -> Answer {
    let Some(mut table) = listed(desk, jobs) else {
        return Answer::refused(13);
    };
    work_out(&mut table);
    put_back(desk, jobs, &table, 0);
    Answer::good([0; 4])
}

/// A request at time t of budget c and deadline d: 13 to 18.
pub fn request(desk: &mut Desk, jobs: &mut [Job], t: u32, c: u32, d: u32) -> Answer {
    let Some(table) = opened(desk, jobs) else {
        return Answer::refused(13);
    };
    let [t, c, d] = [t, c, d].map(i64::from);
    if c == 0 || c > TIME || d > TIME || t > TIME {
        return Answer::refused(14);
    }
    if t < i64::from(desk.clock) {
        return Answer::refused(15);
    }
    // "jobs with a + C ≤ t are dropped and the rest move up"
    let left: Vec<Listed> = table.into_iter().filter(|job| job.end() > t).collect();
    let place = match lowest_place(&left, t, c, d) {
        Ok(place) => place,
        Err(number) => {
            put_back(desk, jobs, &left, t);
            return match number {
                18 => explain::refusal(&left, t, d),
                _ => Answer::refused(number),
            };
        }
    };
    let start = earliest(&left, place, t);
    let table = taken_in(&left, place, [start, c, d]);
    put_back(desk, jobs, &table, t);
    Answer::good([place as u64, start as u64, 0, 0])
}

/// The table rules but for x and the clock: "count at most 64; [...] each d at most 1,000,000;
/// zeros past the count, at opening too; C ≥ 1; each a + C is at most its d and at most the
/// next a". "A lent table of other than 64 places is 13."
fn listed(desk: &Desk, jobs: &[Job]) -> Option<Vec<Listed>> {
    let count = desk.count as usize;
    if jobs.len() != JOBS || count > JOBS {
        return None;
    }
    let table: Vec<Listed> = jobs[..count].iter().map(widened).collect();
    let rest = &jobs[count..];
    let good = |job: &Listed| job.c >= 1 && job.d <= TIME && job.end() <= job.d;
    let ordered = |pair: &[Listed]| pair[0].end() <= pair[1].a;
    let zeros = rest.iter().all(|job| *job == Job::default());
    (zeros && table.iter().all(good) && table.windows(2).all(ordered)).then_some(table)
}

/// All table rules, the clock and every x among them.
fn opened(desk: &Desk, jobs: &[Job]) -> Option<Vec<Listed>> {
    let table = listed(desk, jobs)?;
    let mut afresh = table.clone();
    work_out(&mut afresh);
    (i64::from(desk.clock) <= TIME && afresh == table).then_some(table)
}

fn widened(job: &Job) -> Listed {
    let [a, c, d, x] = [job.a, job.c, job.d, job.x].map(i64::from);
    Listed { a, c, d, x }
}

fn narrowed(job: &Listed) -> Job {
    let [a, c, d, x] = [job.a, job.c, job.d, job.x].map(|number| number as u32);
    Job { a, c, d, x }
}

/// "Places past the count hold zeros."
fn put_back(desk: &mut Desk, jobs: &mut [Job], table: &[Listed], clock: i64) {
    desk.clock = clock as u32;
    desk.count = table.len() as u32;
    jobs.fill(Job::default());
    for (place, job) in jobs.iter_mut().zip(table) {
        *place = narrowed(job);
    }
}

/// "The last x is d − a − C; any other is the smaller of its own d − a − C and
/// (next x) + (next a) − a − C."
fn flexibility(table: &[Listed], place: usize) -> i64 {
    let job = &table[place];
    let own = job.d - job.a - job.c;
    match table.get(place + 1) {
        Some(next) => own.min(next.x + next.a - job.a - job.c),
        None => own,
    }
}

fn work_out(table: &mut [Listed]) {
    for place in (0..table.len()).rev() {
        table[place].x = flexibility(table, place);
    }
}

/// "s is t for place 0, else the end of the job before."
pub(crate) fn earliest(left: &[Listed], place: usize, t: i64) -> i64 {
    if place == 0 {
        t
    } else {
        left[place - 1].end()
    }
}

/// 16, 17, 18, or the lowest place that takes the request, of the places from 0 to l.
fn lowest_place(left: &[Listed], t: i64, c: i64, d: i64) -> Result<usize, u64> {
    if left.first().is_some_and(|job| job.a < t) {
        return Err(16);
    }
    if left.len() == JOBS {
        return Err(17);
    }
    // "let l be the number of jobs left with a ≤ d"
    let l = left.iter().filter(|job| job.a <= d).count();
    let takes = |place: &usize| {
        let s = earliest(left, *place, t);
        if *place < l {
            room(&left[*place], s, d) >= c
        } else {
            // "place l is tried too, also when the table is empty or no job follows: it is taken
            // when s + C ≤ d"
            s + c <= d
        }
    };
    (0..=l).find(takes).ok_or(18)
}

/// "Room is R = a − s + min(d − a, x) of job i, where d is the request's."
pub(crate) fn room(job: &Listed, s: i64, d: i64) -> i64 {
    job.a - s + (d - job.a).min(job.x)
}

/// "Later jobs move only as far as the job before forces them, each x falling by its own move;
/// earlier x are worked out again from there towards the front."
fn taken_in(left: &[Listed], place: usize, [a, c, d]: [i64; 3]) -> Vec<Listed> {
    let mut table = left.to_vec();
    table.insert(place, Listed { a, c, d, x: 0 });
    let mut end = a + c;
    for job in &mut table[place + 1..] {
        let moved = (end - job.a).max(0);
        job.a += moved;
        job.x -= moved;
        end = job.end();
    }
    for earlier in (0..=place).rev() {
        table[earlier].x = flexibility(&table, earlier);
    }
    table
}

#[cfg(test)]
mod tests {
    use super::{lowest_place, work_out, Listed};
    use crate::rng::Rng;

    fn table(rng: &mut Rng) -> Vec<Listed> {
        let mut end = 0;
        let mut table = Vec::new();
        for _ in 0..rng.between(0, 4) {
            let a = end + rng.between(0, 4) as i64;
            let c = rng.between(1, 4) as i64;
            end = a + c;
            let d = end + rng.between(0, 8) as i64;
            table.push(Listed { a, c, d, x: 0 });
        }
        work_out(&mut table);
        table
    }

    /// Whether all ends lie by their deadlines when each job waits for the one before.
    fn in_time(table: &[Listed]) -> bool {
        let mut end = 0;
        table.iter().all(|job| {
            end = job.a.max(end) + job.c;
            end <= job.d
        })
    }

    #[test]
    fn x_is_the_longest_move_that_harms_nobody() {
        let mut rng = Rng::new(3);
        for _ in 0..5000 {
            let table = table(&mut rng);
            for place in 0..table.len() {
                let moved = |far: i64| {
                    let mut rest = table[place..].to_vec();
                    rest[0].a += far;
                    in_time(&rest)
                };
                assert!(moved(table[place].x) && !moved(table[place].x + 1));
            }
        }
    }

    #[test]
    fn the_lowest_place_at_which_all_stay_in_time_is_taken() {
        let mut rng = Rng::new(4);
        for _ in 0..20_000 {
            let table = table(&mut rng);
            let first = table.first().map_or(9, |job| job.a);
            let t = rng.between(0, first as usize) as i64;
            let [c, d] = [8, 30].map(|most| rng.between(1, most) as i64);
            let fits = |place: usize| {
                let start = if place == 0 {
                    t
                } else {
                    table[place - 1].end()
                };
                let mut rest = table[place..].to_vec();
                rest.insert(
                    0,
                    Listed {
                        a: start,
                        c,
                        d,
                        x: 0,
                    },
                );
                in_time(&rest)
            };
            let tried = (0..=table.len()).find(|&place| fits(place));
            assert_eq!(
                lowest_place(&table, t, c, d).ok(),
                tried,
                "{table:?} {t} {c} {d}"
            );
        }
    }
}
