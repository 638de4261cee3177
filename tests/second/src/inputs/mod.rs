//! Seeded inputs for the comparisons.

pub mod counts;
pub mod editions;
pub mod faults;
pub mod files;
pub mod granules;
pub mod jobs;
pub mod plans;
pub mod requests;
pub mod tables;
pub mod tasks;
pub mod texts;
