//! A page that is asked for: the list that is lent, the verdict beside it, and what the rows have to
//! say.

use second::limits::PERIOD;
use second::page::{page, ROW};
use second::rng::Rng;
use second::{records, verdict, Answer};

use crate::batch::Entry;
use crate::curve::before;
use crate::seen::{kind, Seen};
use crate::trial::Trial;
use crate::verdict::asked::{ask, Input, VERDICT};

/// What stands behind the list is left alone.
const BEHIND: usize = 3;

/// Plans and points up to so many ticks counted are counted anew.
const FEW: u64 = 50_000;

/// Point, demand, least service and start.
pub type Rows = Vec<[u64; ROW]>;

/// A failing task's page.
#[derive(Clone, Debug, PartialEq)]
pub struct Page {
    pub rows: Rows,
    pub point: u64,
    pub shortage: u64,
}

/// What came of a page that was asked for.
#[derive(Clone, Debug, PartialEq)]
pub enum Paged {
    Refused(Answer),
    Pass(u64),
    Fail(Page),
}

/// How many scheduling points the task at a place has; of a bad place or task any number.
pub fn points(input: &Input, place: usize) -> usize {
    let tasks = records::tasks(&input.tasks).unwrap_or_default();
    if place == 0 || place > tasks.len() {
        return 1;
    }
    let (higher, asked) = (&tasks[..place - 1], tasks[place - 1]);
    let own = |period: u64, t: u64| period > 0 && t.is_multiple_of(period);
    let multiple = |t: u64| {
        let mut higher = higher.iter();
        higher.any(|task| task.partition == asked.partition && own(task.t, t))
    };
    let ticks = 1..=asked.d.min(PERIOD);
    ticks.filter(|t| *t == asked.d || multiple(*t)).count()
}

/// A list that is empty, too short, exact, or longer.
pub fn some_numbers(rng: &mut Rng, needed: usize) -> usize {
    match rng.between(0, 19) {
        0 => 0,
        1 => needed.saturating_sub(1),
        2 => needed.saturating_sub(ROW),
        3 => rng.between(0, needed),
        4..=8 => needed + rng.between(1, 9),
        _ => needed,
    }
}

/// Lends a list of so many numbers to both programs; the answer, and what then stands in it.
pub fn compare(
    trial: &mut Trial,
    input: &Input,
    place: usize,
    numbers: usize,
) -> (Answer, Vec<u32>) {
    let Input {
        edition,
        granule,
        plan,
        parts,
        tasks,
    } = input;
    let before = before(&mut trial.rng, numbers + BEHIND);
    let mut after = before.clone();
    let list = &mut after[..numbers];
    let answer = page(*edition, *granule, plan, parts, tasks, place, list);
    let given = [*edition, *granule, place as u64];
    let call = trial.call(Entry::Page, &given, answer);
    let call = call.reads(plan).reads(parts).reads(tasks);
    call.writes(numbers, &before, &after);
    (answer, after)
}

/// Asks for the page in a list of so many numbers, and for the verdict. "Refusals: the verdict's; a
/// list too short for a failing task's points is 12"; "A passing task lists nothing".
pub fn page_in(trial: &mut Trial, input: &Input, place: usize, numbers: usize) -> Paged {
    let needed = ROW * points(input, place);
    let verdict = ask(trial, VERDICT, input, place);
    let (answer, list) = compare(trial, input, place, numbers);
    let asked = (input, place, numbers, answer);
    if verdict.number != 0 || verdict.first != 0 {
        trial.same((asked, "as the verdict"), answer, verdict);
        return match verdict.number {
            0 => Paged::Pass(verdict.first),
            _ => Paged::Refused(verdict),
        };
    }
    if numbers < needed {
        let short = Answer::refused(12);
        trial.same((asked, "too short"), answer, short);
        return Paged::Refused(short);
    }
    let found = [answer.number, answer.first, answer.second];
    trial.same((asked, "fails"), found, [0, 0, (needed / ROW) as u64]);
    let row = |numbers: &[u32]| [0, 1, 2, 3].map(|at| u64::from(numbers[at]));
    let page = Page {
        rows: list[..needed].chunks(ROW).map(row).collect(),
        point: answer.third,
        shortage: answer.fourth,
    };
    hold(trial, input, place, &page);
    Paged::Fail(page)
}

/// The same in a list of some length, with a note of what came of it.
pub fn judge(trial: &mut Trial, input: &Input, place: usize, seen: &mut Seen) -> Paged {
    let needed = ROW * points(input, place);
    let numbers = some_numbers(&mut trial.rng, needed);
    let paged = page_in(trial, input, place, numbers);
    note(seen, input, &paged);
    if numbers > needed && matches!(paged, Paged::Fail(_)) {
        seen.count(LONGER.to_string());
    }
    paged
}

/// The same in a list that is exact.
pub fn exact(trial: &mut Trial, input: &Input, place: usize, seen: &mut Seen) -> Paged {
    let needed = ROW * points(input, place);
    let paged = page_in(trial, input, place, needed);
    note(seen, input, &paged);
    paged
}

/// Every place of the table and the two beside it.
pub fn judge_all(trial: &mut Trial, input: &Input, seen: &mut Seen) {
    for place in 0..=input.listed() + 1 {
        judge(trial, input, place, seen);
    }
}

fn shortage([_, demand, least, _]: &[u64; ROW]) -> u64 {
    demand - least
}

/// "Show that each number is the rules' own": the points rise up to D, demand counts releases, the
/// stretch from the start holds least, and where there is little to count no stretch holds less and
/// none from a lower start as little. No point lacks less than the one named, and no lower one as
/// little.
fn hold(trial: &Trial, input: &Input, place: usize, page: &Page) {
    let tasks = records::tasks(&input.tasks).unwrap_or_default();
    let (higher, asked) = (&tasks[..place - 1], tasks[place - 1]);
    let service = input.service();
    let p = asked.partition;
    let rising = page.rows.windows(2).all(|pair| pair[0][0] < pair[1][0]);
    let last = page.rows.last().map(|row| row[0]);
    let shown = (input, place, page);
    trial.same(
        (shown, "rising to D"),
        (rising, last),
        (true, Some(asked.d)),
    );
    let ticks: u64 = page.rows.iter().map(|row| row[0]).sum();
    let anew = ticks * service.frame() as u64 <= FEW;
    for &[point, demand, least, start] in &page.rows {
        let mut wanted = asked.c;
        for task in higher.iter().filter(|task| task.partition == p) {
            wanted += task.c * (0..point).step_by(task.t as usize).count() as u64;
        }
        trial.same((shown, point, "demand"), demand, wanted);
        let held = |start: usize| service.count(p, start, point);
        trial.same((shown, point, "held"), held(start as usize), least);
        if anew {
            let counts: Vec<u64> = (0..service.frame()).map(held).collect();
            let [lower, rest] = [&counts[..start as usize], &counts[start as usize..]];
            let lowest = lower.iter().all(|held| *held > least);
            let worst = rest.iter().all(|held| *held >= least);
            trial.same((shown, point, "worst"), [lowest, worst], [true; 2]);
        }
    }
    let before = |row: &&[u64; ROW]| row[0] < page.point;
    let more = |row: &[u64; ROW]| shortage(row) > page.shortage;
    let lowest = page.rows.iter().take_while(before).all(more);
    let rest = page.rows.iter().skip_while(before);
    let shortages: Vec<u64> = rest.map(shortage).collect();
    let found = (lowest, shortages.first(), shortages.iter().min());
    let least = Some(&page.shortage);
    trial.same((shown, "named"), found, (true, least, least));
}

pub const SEVERAL: &str = "several points";
pub const MANY: &str = "many points";
pub const EQUAL: &str = "equal shortages";
pub const WITHIN: &str = "named between the others";
pub const NAMED_LAST: &str = "the last is named of several";
pub const LATER: &str = "a start above 0";
pub const LAST_TICK: &str = "a start at the frame's last tick";
pub const WORST_TWICE: &str = "equal worst starts";
pub const PAST: &str = "a point past the frame";
pub const LONGER: &str = "a longer list";

/// A refusal, a pass, or a fail and what its page is like.
pub fn note(seen: &mut Seen, input: &Input, paged: &Paged) {
    let page = match paged {
        Paged::Refused(answer) => return seen.count(kind(*answer)),
        Paged::Pass(_) => return seen.count("pass".to_string()),
        Paged::Fail(page) => page,
    };
    let Page { rows, point, .. } = page;
    let frame = input.plan.len() as u64;
    let [first, last] = [rows[0][0], rows[rows.len() - 1][0]];
    let smallest = |row: &&[u64; ROW]| shortage(row) == page.shortage;
    for (is, how) in [
        (true, "fail"),
        (rows.len() > 1, SEVERAL),
        (rows.len() > 30, MANY),
        (rows.iter().filter(smallest).count() > 1, EQUAL),
        (first < *point && *point < last, WITHIN),
        (first < last && *point == last, NAMED_LAST),
        (rows.iter().any(|row| row[3] > 0), LATER),
        (
            frame > 1 && rows.iter().any(|row| row[3] + 1 == frame),
            LAST_TICK,
        ),
        (last > frame, PAST),
    ] {
        if is {
            seen.count(how.to_string());
        }
    }
}

/// Notes where a worst start is not the only one, nor every one.
pub fn note_starts(seen: &mut Seen, input: &Input, p: u16, page: &Page) {
    let service = input.service();
    let twice = |[point, _, least, _]: &[u64; ROW]| {
        let worst = |start: &usize| service.count(p, *start, *point) == *least;
        let starts = (0..service.frame()).filter(worst).count();
        1 < starts && starts < service.frame()
    };
    if page.rows.iter().any(twice) {
        seen.count(WORST_TWICE.to_string());
    }
}

/// Raises the last task's budget until it fails; whether it did. It passes with the whole of D only
/// where all time is its own.
pub fn until_it_fails(input: &mut Input) -> bool {
    let place = input.listed();
    loop {
        let Input {
            edition,
            granule,
            plan,
            parts,
            tasks,
        } = &*input;
        let judged = verdict::verdict(*edition, *granule, plan, parts, tasks, place);
        let task = input.task(place);
        if judged.first == 0 || task[1] == task[2] {
            return judged.first == 0;
        }
        task[1] += 1;
    }
}
