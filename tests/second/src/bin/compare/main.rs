//! The library and the programs against the second program. Words on the command line choose the trials whose names
//! start with one of them.

mod batch;
mod build;
mod counts;
mod curve;
mod desk;
mod editions;
mod file;
mod granules;
mod library;
mod line;
mod listing;
mod page;
mod plan;
mod programs;
mod progress;
mod promise;
mod seen;
mod service;
mod settings;
mod show;
mod trial;
mod verdict;
mod wants;
mod why;

use std::env;
use std::panic;
use std::process::ExitCode;
use std::sync::atomic::{AtomicUsize, Ordering};
use std::sync::OnceLock;
use std::thread;

use settings::Settings;
use show::Tally;
use trial::{Named, Passed, Trial};

/// What a trial doesn't need of its time falls to the later ones: the short ones come first.
fn trials() -> Vec<Named> {
    [
        counts::TRIALS,
        wants::TRIALS,
        service::TRIALS,
        curve::TRIALS,
        build::TRIALS,
        verdict::TRIALS,
        page::TRIALS,
        granules::TRIALS,
        editions::TRIALS,
        file::TRIALS,
        listing::TRIALS,
        desk::TRIALS,
        plan::TRIALS,
        why::TRIALS,
    ]
    .concat()
}

/// All trials, or those whose names start with one of the words.
fn chosen(words: &[String]) -> Result<Vec<Named>, String> {
    let mut trials = trials();
    let starts = |name: &str, word: &String| name.starts_with(word.as_str());
    let chooses = |word: &&String| trials.iter().any(|(name, _)| starts(name, word));
    if let Some(word) = words.iter().find(|word| !chooses(word)) {
        return Err(format!("no trial's name starts with \"{word}\""));
    }
    trials.retain(|(name, _)| words.is_empty() || words.iter().any(|word| starts(name, word)));
    Ok(trials)
}

/// Runs the trials, each thread the next that is left; one that fails has said so, and is empty.
fn run(settings: &Settings, trials: &[Named]) -> Vec<Option<Passed>> {
    let next = AtomicUsize::new(0);
    let ended: Vec<OnceLock<Option<Passed>>> = trials.iter().map(|_| OnceLock::new()).collect();
    let work = || loop {
        let at = next.fetch_add(1, Ordering::Relaxed);
        let Some((name, run)) = trials.get(at) else {
            return;
        };
        let until = settings.until(trials.len() - at);
        let tried = panic::catch_unwind(|| {
            let mut trial = Trial::new(name, settings, until);
            run(&mut trial);
            trial.end()
        });
        let _ = ended[at].set(tried.ok());
    };
    thread::scope(|scope| (0..settings.threads).for_each(|_| drop(scope.spawn(work))));
    ended
        .into_iter()
        .map(|one| one.into_inner().flatten())
        .collect()
}

/// A line for each trial, and the sums; whether all passed.
fn report(settings: &Settings, trials: &[Named], ended: &[Option<Passed>]) -> bool {
    let mut tally = Tally::default();
    for ((name, _), passed) in trials.iter().zip(ended) {
        let Some(Passed {
            tally: own,
            left_out,
        }) = passed
        else {
            println!("{name}: FAILED");
            continue;
        };
        println!("{name}: {} calls{left_out}", own.iter().sum::<u64>());
        tally.iter_mut().zip(own).for_each(|(all, own)| *all += own);
    }
    let [calls, seed] = [tally.iter().sum(), settings.seed];
    if calls > 0 {
        println!("by entry: {}", show::by_entry(&tally));
    }
    let passed = ended.iter().flatten().count();
    println!(
        "{passed} of {} trials passed, {calls} calls, seed {seed}",
        trials.len()
    );
    passed == trials.len()
}

fn compare(words: &[String]) -> Result<bool, String> {
    let trials = chosen(words)?;
    let settings = Settings::read()?;
    let ended = run(&settings, &trials);
    Ok(report(&settings, &trials, &ended))
}

fn main() -> ExitCode {
    let words: Vec<String> = env::args().skip(1).collect();
    match compare(&words) {
        Ok(true) => ExitCode::SUCCESS,
        Ok(false) => ExitCode::from(1),
        Err(why) => {
            eprintln!("compare: {why}");
            ExitCode::from(2)
        }
    }
}
