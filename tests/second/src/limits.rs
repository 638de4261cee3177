//! "Numbers".

pub const PARTITIONS: usize = 16;
pub const TASKS: usize = 128;
pub const FRAME: usize = 4096;
pub const RUNS: usize = 4096;
pub const CYCLE: usize = 4096;
pub const SHARE: u16 = 1000;
pub const PERIOD: u64 = 4096;

/// "g from 1 to 16" (ask 5 of document 02).
pub const GRANULE: u64 = 16;

/// "Desk: 64 jobs; times and budgets up to 1,000,000."
pub const JOBS: usize = 64;
pub const TIME: i64 = 1_000_000;

/// The share table's text, in bytes (docs/FORMAT.md).
pub const TEXT: usize = 65_536;
