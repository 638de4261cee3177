//! The rules of document 01 once more, with asks 1, 2 and 4 to 8 of document 02, the curve of least
//! service, the share table and the page as text, by plain counting and trying, to compare the
//! library and the programs against.

pub mod answer;
pub mod builder;
pub mod counts;
pub mod curve;
pub mod desk;
pub mod editions;
mod explain;
pub mod file;
pub mod inputs;
pub mod limits;
pub mod listing;
pub mod page;
pub mod plan;
pub mod planner;
pub mod records;
pub mod rng;
pub mod runs;
pub mod service;
pub mod share_table;
pub mod shares;
pub mod ticks;
pub mod verdict;
pub mod why;
mod words;

#[cfg(test)]
mod examples;
#[cfg(test)]
mod some_place;

pub use answer::Answer;
