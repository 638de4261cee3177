//! The desk's 18 (ask 7 of document 02): "the lowest place with the largest room, that room, and
//! whether the request's own deadline or a listed job's binds it".

use crate::answer::Answer;
use crate::desk::{earliest, room, Listed};

/// What binds the room of a place.
#[derive(Clone, Copy, Debug, PartialEq, Eq)]
enum Bound {
    /// "the request's own deadline".
    Own,
    /// "a listed job's": its place from 0, after dropping.
    Job(usize),
}

/// "If there is none, as when t is past d, say so": all values are 0 then.
pub(crate) fn refusal(left: &[Listed], t: i64, d: i64) -> Answer {
    let Some((place, room)) = largest_room(left, t, d) else {
        return Answer::refused(18);
    };
    let [which, job] = match what_binds(left, place, earliest(left, place, t), room, d) {
        Bound::Own => [1, 0],
        Bound::Job(job) => [2, job as u64],
    };
    Answer::new(18, [place as u64, room as u64, which, job])
}

/// "a place with room below 0 is none".
fn largest_room(left: &[Listed], t: i64, d: i64) -> Option<(usize, i64)> {
    let mut largest = None;
    for (place, room) in rooms(left, t, d).into_iter().enumerate() {
        let less = |(_, other)| other < room;
        if room >= 0 && largest.is_none_or(less) {
            largest = Some((place, room));
        }
    }
    largest
}

/// By the rule for the places before l; "Place l has room d − s".
fn rooms(left: &[Listed], t: i64, d: i64) -> Vec<i64> {
    let mut rooms = Vec::new();
    for (place, job) in left.iter().enumerate().filter(|(_, job)| job.a <= d) {
        rooms.push(room(job, earliest(left, place, t), d));
    }
    let l = rooms.len();
    rooms.push(d - earliest(left, l, t));
    rooms
}

/// By trying: so many ticks as the room has break no deadline, "one tick more in that place does
/// break the deadline named".
fn what_binds(left: &[Listed], place: usize, s: i64, room: i64, d: i64) -> Bound {
    let asked = (left, place, s, room, d);
    assert_eq!(broken(left, place, s, room, d), None, "{asked:?}");
    let bound = broken(left, place, s, room + 1, d);
    bound.unwrap_or_else(|| panic!("nothing binds the room: {asked:?}"))
}

/// Which deadline so many ticks from s on break in that place, the later jobs moved as far as the
/// job before forces them. "On equals the request's deadline is named", "if a listed job, the first
/// one".
fn broken(left: &[Listed], place: usize, s: i64, ticks: i64, d: i64) -> Option<Bound> {
    let mut end = s + ticks;
    if end > d {
        return Some(Bound::Own);
    }
    for (later, job) in left.iter().enumerate().skip(place) {
        end = job.a.max(end) + job.c;
        if end > job.d {
            return Some(Bound::Job(later));
        }
    }
    None
}
