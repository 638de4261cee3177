//! Times the library's entries beside the second program's:
//! `NAME  library ns/call  second ns/call  ratio`, one line each. Where the name ends in `same`, the
//! library's own method in Rust stands in the second program's place; where it ends in `points`, the
//! library's other engine; in `least`, its least service once for each t; in `walk`, the walk for each
//! t in Rust; of `counts` what it says. Where it says `edition 2`, the switch tick is no service, for both;
//! else it is edition 1. Of the lines with `anew` anew.rs tells; `growth` is a table. The entries are named
//! as arguments; all, where none is named.

mod anew;
mod apart;
mod build;
mod check;
mod counts;
mod curve;
mod desk;
mod files;
mod growth;
mod least;
mod library;
mod list;
mod page;
mod rule;
mod steps;
mod timing;
mod verdict;
mod walk;
mod why;

use std::process::ExitCode;

const ENTRIES: &[(&str, fn())] = &[
    ("build", build::run),
    ("least", least::run),
    ("curve", curve::run),
    ("check", check::run),
    ("verdict", verdict::run),
    ("page", why::run),
    ("list", list::run),
    ("growth", growth::run),
    ("desk", desk::run),
    ("counts", counts::run),
];

fn main() -> ExitCode {
    let named: Vec<String> = std::env::args().skip(1).collect();
    let known = |one: &&String| ENTRIES.iter().any(|(name, _)| one == name);
    if let Some(one) = named.iter().find(|one| !known(one)) {
        eprintln!("bench: no entry \"{one}\"");
        return ExitCode::from(2);
    }
    for (name, run) in ENTRIES {
        if named.is_empty() || named.iter().any(|one| one == name) {
            run();
        }
    }
    ExitCode::SUCCESS
}
