//! The supplier's page, reckoned by hand.

use super::{P1_PLAN, P1_TABLE};
use crate::answer::Answer;
use crate::page::page;
use crate::verdict::verdict;

/// What stands in the list before, and behind the rows.
const BEFORE: u32 = 77;

/// The page of the last task, in lists that are a number short, exact and longer; the verdict
/// fails too.
fn fails(
    edition: u64,
    plan: &[u16],
    parts: &[u16],
    tasks: &[[u16; 4]],
    rows: &[[u32; 4]],
    named: [u64; 2],
) {
    let (tasks, place) = (tasks.concat(), tasks.len());
    let asked = |numbers: usize| {
        let mut list = vec![BEFORE; numbers];
        let answer = page(edition, 1, plan, parts, &tasks, place, &mut list);
        (answer, list)
    };
    let [point, shortage] = named;
    let told = Answer::good([0, rows.len() as u64, point, shortage]);
    let numbers = 4 * rows.len();
    for more in [0, 1, 3, 4, 9] {
        let list = [&rows.concat()[..], &vec![BEFORE; more]].concat();
        assert_eq!(asked(numbers + more), (told, list));
    }
    for short in [0, 1, numbers - 4, numbers - 1] {
        assert_eq!(asked(short), (Answer::refused(12), vec![BEFORE; short]));
    }
    let judged = verdict(edition, 1, plan, parts, &tasks, place);
    assert_eq!(judged, Answer::good([0; 4]));
}

/// "A passing task lists nothing", in any list.
fn passes(plan: &[u16], parts: &[u16], tasks: &[[u16; 4]], point: u64) {
    let (tasks, place) = (tasks.concat(), tasks.len());
    for numbers in [0, 1, 3, 4, 40] {
        let mut list = vec![BEFORE; numbers];
        let answer = page(1, 1, plan, parts, &tasks, place, &mut list);
        assert_eq!(answer, Answer::good([point, 0, 0, 0]));
        assert_eq!(list, vec![BEFORE; numbers]);
    }
}

/// "with D 13 it fails (4 > 3), with D 14 it passes at 14". The 13 ticks from 4 to 16 hold three of
/// partition 2; those from any other start hold more.
#[test]
fn v1_v2() {
    let first = [2, 2, 8, 16];
    passes(&P1_PLAN, &P1_TABLE, &[first], 8);
    let rows = [[13, 4, 3, 4]];
    let judged = |tasks: &[[u16; 4]], rows: &[[u32; 4]], named: [u64; 2]| {
        fails(1, &P1_PLAN, &P1_TABLE, tasks, rows, named);
    };
    judged(&[first, [2, 2, 13, 32]], &rows, [13, 1]);
    passes(&P1_PLAN, &P1_TABLE, &[first, [2, 2, 14, 32]], 14);
    // Tasks of other partitions, of any period, change nothing.
    judged(
        &[first, [1, 1, 3, 3], [3, 1, 5, 5], [2, 2, 13, 32]],
        &rows,
        [13, 1],
    );
    // Three ticks from 4, 5 or 6 on hold none.
    judged(&[[2, 3, 3, 16]], &[[3, 3, 0, 4]], [3, 3]);
    // Of partition 1 three ticks from 1 or 5 on hold none; of partition 3 seven from 6 on do.
    judged(&[[1, 1, 3, 9]], &[[3, 1, 0, 1]], [3, 1]);
    judged(&[[3, 1, 7, 9]], &[[7, 1, 0, 6]], [7, 1]);
    // 16 ticks hold six of partition 2 from any start; 17 do from 4 on, and from 0, 5, 6 and 7 on.
    judged(
        &[first, [2, 5, 17, 32]],
        &[[16, 7, 6, 0], [17, 9, 6, 0]],
        [16, 1],
    );
}

/// In a plan of one tick that is its own, least(t) is t from start 0.
#[test]
fn one_tick() {
    let judged = |tasks: &[[u16; 4]], rows: &[[u32; 4]], named: [u64; 2]| {
        fails(1, &[1], &[1, 1, 1], tasks, rows, named);
        fails(2, &[1], &[1, 1, 1], tasks, rows, named);
    };
    // Demand is 5 and 2 for each four ticks: the point in the middle lacks least.
    let rows = [[4, 7, 4, 0], [8, 9, 8, 0], [9, 11, 9, 0]];
    judged(&[[1, 2, 4, 4], [1, 5, 9, 9]], &rows, [8, 1]);
    // A task that takes all: each multiple of its period lacks the same, the lowest is named.
    let rows = [[4, 6, 4, 0], [8, 10, 8, 0], [9, 14, 9, 0]];
    judged(&[[1, 4, 4, 4], [1, 2, 9, 9]], &rows, [4, 2]);
    // The last is named where it is D that lacks least.
    let rows = [[5, 9, 5, 0], [9, 10, 9, 0]];
    judged(&[[1, 1, 5, 5], [1, 8, 9, 9]], &rows, [9, 1]);
    // Points of two periods and D, each once: 12 is all three.
    let rows = [[4, 14, 4, 0], [6, 16, 6, 0], [8, 20, 8, 0], [12, 22, 12, 0]];
    judged(
        &[[1, 2, 4, 4], [1, 4, 6, 6], [1, 8, 12, 12]],
        &rows,
        [4, 10],
    );
    // Equal periods, and one above D.
    let rows = [[3, 4, 3, 0], [5, 6, 5, 0]];
    judged(
        &[[1, 1, 3, 3], [1, 1, 3, 3], [1, 1, 9, 9], [1, 1, 5, 5]],
        &rows,
        [3, 1],
    );
    // A period of one tick: every tick is a point.
    let rows = [[1, 2, 1, 0], [2, 3, 2, 0], [3, 4, 3, 0]];
    judged(&[[1, 1, 1, 1], [1, 1, 3, 3]], &rows, [1, 1]);
}

/// Worst starts: the last of the frame, the first of several, the only one.
#[test]
fn starts() {
    let judged = |plan: &[u16], task: [u16; 3], row: [u32; 4]| {
        let [c, d, t] = task;
        let parts = [plan.len() as u16, 1, 100];
        let short = u64::from(row[1] - row[2]);
        fails(1, plan, &parts, &[[1, c, d, t]], &[row], [d.into(), short]);
    };
    judged(&[1, 1, 1, 0], [1, 1, 9], [1, 1, 0, 3]);
    judged(&[1, 0, 1, 0], [1, 1, 9], [1, 1, 0, 1]);
    judged(&[0, 1, 0, 1], [1, 1, 9], [1, 1, 0, 0]);
    judged(&[1, 1, 0, 0], [3, 5, 9], [5, 3, 2, 2]);
    // Whole frames hold the same from every start.
    judged(&[1, 1, 1, 0], [7, 8, 9], [8, 7, 6, 0]);
    // One own tick, from tick 0 on alone, and from tick 2 on alone: all other stretches hold more.
    judged(&[0, 1, 0, 0, 0, 1, 1], [3, 5, 9], [5, 3, 1, 0]);
    judged(&[0, 1, 0, 0, 0, 0, 1, 1], [3, 6, 9], [6, 3, 1, 0]);
    judged(&[1, 1, 0, 1, 0, 0, 0, 0], [2, 6, 9], [6, 2, 1, 2]);
}

/// A switch tick is no service: tick 1 alone is, of four. Seven ticks from 2 on hold one of them,
/// in edition 1 three.
#[test]
fn in_edition_2() {
    let (plan, parts) = ([1, 1, 0, 0], [4, 1, 4]);
    fails(2, &plan, &parts, &[[1, 2, 7, 9]], &[[7, 2, 1, 2]], [7, 1]);
    passes(&plan, &parts, &[[1, 2, 7, 9]], 7);
    // Both ticks of a frame, or one.
    fails(2, &plan, &parts, &[[1, 2, 4, 9]], &[[4, 2, 1, 0]], [4, 1]);
    fails(1, &plan, &parts, &[[1, 3, 4, 9]], &[[4, 3, 2, 0]], [4, 1]);
    // The run goes on past the frame's end: its switch tick is the last, and tick 0 alone serves.
    let joined = [1, 0, 0, 1];
    fails(2, &joined, &parts, &[[1, 1, 3, 9]], &[[3, 1, 0, 1]], [3, 1]);
    fails(1, &joined, &parts, &[[1, 1, 2, 9]], &[[2, 1, 0, 1]], [2, 1]);
}

/// The verdict's refusals come before 12, and nothing is written. The task would fail.
#[test]
fn refused_before_12() {
    let fails = [1, 2, 2, 2];
    let refused = |edition, granule, plan: &[u16], cycle: u16, tasks: &[u16], place| {
        let mut found = None;
        for numbers in [0, 3, 4, 9] {
            let mut list = vec![BEFORE; numbers];
            let parts = [cycle, 1, cycle];
            let answer = page(edition, granule, plan, &parts, tasks, place, &mut list);
            assert_eq!(list, vec![BEFORE; numbers]);
            assert!(found.is_none_or(|other| other == answer));
            found = Some(answer);
        }
        found.unwrap_or_default()
    };
    let bad = [1, 0, 2, 2];
    let at = Answer::refused_at;
    assert_eq!(refused(3, 0, &[], 5, &bad[..3], 0), Answer::refused(2));
    assert_eq!(refused(1, 0, &[], 5, &bad[..3], 0), Answer::refused(3));
    assert_eq!(refused(1, 0, &[1, 2], 5, &bad, 0), Answer::refused(21));
    assert_eq!(refused(1, 1, &[1, 2], 5, &bad, 0), at(6, 1));
    assert_eq!(refused(1, 1, &[1, 2], 2, &bad, 0), at(7, 1));
    assert_eq!(refused(1, 1, &[1, 2], 2, &fails, 2), at(7, 0));
    assert_eq!(refused(1, 1, &[1, 2], 2, &fails, 1), at(8, 2));
    let short = Answer::new(9, [1, 1, 0, 1]);
    assert_eq!(refused(1, 1, &[1, 0], 1, &fails, 1), short);
    let mut list = [BEFORE; 3];
    let answer = page(1, 1, &[1, 0], &[2, 1, 2], &fails, 1, &mut list);
    assert_eq!((answer, list), (Answer::refused(12), [BEFORE; 3]));
}
