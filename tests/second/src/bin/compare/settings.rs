//! What the environment says: SECOND_SEED, SECOND_CASES, SECOND_SECONDS, SECOND_CALLS, SECOND_PLAN, SECOND_WHY.

use std::env;
use std::thread;
use std::time::{Duration, Instant};

use crate::programs::Programs;

const SEED: u64 = 20_011_966;

pub struct Settings {
    pub seed: u64,
    /// How many times as many cases.
    pub times: u64,
    pub programs: Programs,
    pub threads: usize,
    end: Option<Instant>,
}

impl Settings {
    pub fn read() -> Result<Settings, String> {
        let seconds = number("SECOND_SECONDS")?.map(Duration::from_secs);
        Ok(Settings {
            seed: number("SECOND_SEED")?.unwrap_or(SEED),
            times: number("SECOND_CASES")?.unwrap_or(1),
            programs: Programs::find()?,
            threads: thread::available_parallelism().map_or(1, usize::from),
            // A time past all times is no limit.
            end: seconds.and_then(|seconds| Instant::now().checked_add(seconds)),
        })
    }

    /// Until when a trial may run that starts now as the first of so many that are left: each has
    /// the same share of the time that is left, so what one doesn't need falls to the later ones.
    pub fn until(&self, left: usize) -> Option<Instant> {
        let now = Instant::now();
        let end = self.end?;
        let rest = end.saturating_duration_since(now);
        let share = rest.saturating_mul(self.threads as u32) / left as u32;
        Some(now + share.min(rest))
    }
}

fn number(name: &str) -> Result<Option<u64>, String> {
    let Some(text) = env::var_os(name) else {
        return Ok(None);
    };
    let number = text.to_str().and_then(|text| text.parse().ok());
    number.map_or(Err(format!("{name} is no number")), |number| {
        Ok(Some(number))
    })
}
