//! What asking again gains: the share of late jobs that the desk takes when each is asked for once,
//! at its release, and when it is asked for again after a 16, at the end of the running job. And
//! what both shares would be, had place l not been tried.

mod sets;
mod table;

use std::collections::BTreeMap;

use second::inputs::requests::Request;
use second::rng::Rng;

use sets::{Own, Setting, GOES_ON, SC};
use table::Table;

/// As many for each line as in source document 002.
const SETS: u64 = 1000;
const SEED: u64 = 2002;

/// How late jobs are asked for.
#[derive(Clone, Copy)]
struct Way {
    again: bool,
    with_place_l: bool,
}

const fn way(again: bool, with_place_l: bool) -> Way {
    Way {
        again,
        with_place_l,
    }
}

/// In the order of the columns.
const WAYS: [Way; 4] = [
    way(false, true),
    way(true, true),
    way(false, false),
    way(true, false),
];

const fn setting(name: &'static str, supply: u32, own: Own) -> Setting {
    Setting { name, supply, own }
}

const fn periodic(percent: u32, until: u32) -> Own {
    Own::Periodic { percent, until }
}

const SETTINGS: [Setting; 8] = [
    setting("25 %", 10, periodic(25, GOES_ON)),
    setting("25 %", 7, periodic(25, GOES_ON)),
    setting("25 %", 5, periodic(25, GOES_ON)),
    setting("25 %, ends", 10, periodic(25, SC)),
    setting("5 %", 10, periodic(5, GOES_ON)),
    setting("three jobs", 10, Own::Jobs(3)),
    setting("one job", 10, Own::Jobs(1)),
    setting("none", 10, Own::Jobs(0)),
];

/// How many of the late jobs are taken.
fn taken(mut table: Table, late: &[Request], way: Way) -> u64 {
    let mut taken = 0;
    // By the time at which to ask; at the same time by release.
    let mut waiting: BTreeMap<(u32, usize), Request> = BTreeMap::new();
    for (number, job) in late.iter().enumerate() {
        waiting.insert((job.t, number), *job);
    }
    while let Some(((t, number), job)) = waiting.pop_first() {
        match table.ask(Request { t, ..job }, way.with_place_l).number {
            0 => taken += 1,
            16 if way.again => {
                waiting.insert((table.first_end(), number), job);
            }
            // The sets leave places for all.
            refused => assert!(refused == 16 || refused == 18, "{refused}"),
        }
    }
    taken
}

/// The share of late jobs taken in each way, over many sets.
fn shares(setting: Setting, dlx: u32, percent: u32) -> [f64; 4] {
    let mut rng = Rng::new(SEED);
    let mut all = 0;
    let mut sums = [0; 4];
    for _ in 0..SETS {
        let opened = Table::opened(&setting.own_jobs(&mut rng));
        let late = setting.late_jobs(&mut rng, dlx, percent);
        all += late.len() as u64;
        for (sum, way) in sums.iter_mut().zip(WAYS) {
            *sum += taken(opened.clone(), &late, way);
        }
    }
    sums.map(|sum| sum as f64 / all as f64)
}

const LEGEND: &str = "\
The share of late jobs that the desk takes when each is asked for
  once   at its release only
  again  after each 16 again, at the end of the running job
with place l tried, and had it not been tried.

  own jobs  what periodic jobs need of all ticks (ends: none follow after the cycle),
            or so many single jobs
  supply    how many of ten ticks are the partition's own
  d         from a late job's release to its deadline, in budgets
  late      what late jobs need of all ticks

                                     tried          not tried
own jobs     supply    d   late   once   again    once   again";

/// A setting's shares by how far deadlines lie and by how much is late.
fn lines(setting: Setting) -> impl Iterator<Item = (u32, u32, [f64; 4])> {
    let each = [4, 8, 12].map(|dlx| [5, 10, 15, 20].map(|percent| (dlx, percent)));
    let line = move |(dlx, percent)| (dlx, percent, shares(setting, dlx, percent));
    each.into_iter().flatten().map(line)
}

fn main() {
    println!("{LEGEND}");
    for setting in SETTINGS {
        let Setting { name, supply, .. } = setting;
        for (dlx, percent, [once, again, once_without, again_without]) in lines(setting) {
            println!(
                "{name:<12} {supply:>6} {dlx:>4} {percent:>4} %  {once:.3}  {again:.3}   \
                 {once_without:.3}  {again_without:.3}"
            );
        }
    }
}

#[cfg(test)]
mod tests {
    use super::{lines, Setting, SETTINGS};

    /// Some share in each line of the settings whose own jobs are named so, with such supplies.
    fn all(own: &str, supplies: &[u32], share: fn([f64; 4]) -> f64) -> Vec<f64> {
        let such = |it: &Setting| it.name == own && supplies.contains(&it.supply);
        let settings = SETTINGS.into_iter().filter(such);
        settings
            .flat_map(|it| lines(it).map(|(_, _, shares)| share(shares)))
            .collect()
    }

    fn most(shares: &[f64]) -> f64 {
        shares.iter().copied().fold(f64::NEG_INFINITY, f64::max)
    }

    fn span(shares: &[f64]) -> String {
        let least = shares.iter().copied().fold(f64::INFINITY, f64::min);
        format!("{least:.2} to {:.2}", most(shares))
    }

    fn says(page: &str, what: &str) {
        let words: Vec<&str> = page.split_whitespace().collect();
        assert!(words.join(" ").contains(what), "{what}");
    }

    /// Source document 002 has 70 % and 50 %.
    const SUPPLIES: [u32; 2] = [7, 5];

    #[test]
    fn readme_and_header_say_the_shares_in_the_set_up_of_document_002() {
        let once = span(&all("25 %", &SUPPLIES, |[once, ..]| once));
        let again = span(&all("25 %", &SUPPLIES, |[_, again, ..]| again));
        let said = format!("asking once takes {once} of the late jobs, asking again {again}");
        says(include_str!("../../../../../README.md"), &said);
        says(include_str!("../../../../../include/merkazobi.h"), &said);
    }

    #[test]
    fn readme_says_what_place_l_gains() {
        let gain = |[_, again, _, without]: [f64; 4]| again - without;
        let there = most(&all("25 %", &SUPPLIES, gain));
        let [three, one] = ["three jobs", "one job"].map(|own| span(&all(own, &[10], gain)));
        let said = format!(
            "gains at most {there:.2} there, where a job nearly always follows, but {three} with \
             three own jobs in the table and {one} with one"
        );
        says(include_str!("../../../../../README.md"), &said);
    }
}
