//! The worked examples of document 01, with W1's listing as ask 4 of document 02 has it, and what
//! its plain engine says; with granules of one tick and of more; with the switch tick; and with the
//! reasons that ask 7 adds to a fail and to the desk's 18.

mod desk;
mod editions;
mod explained;
mod granules;
mod page;
mod why;

use crate::answer::Answer;
use crate::builder::build;
use crate::file::{read, section, write};
use crate::listing::text;
use crate::plan::{check, held, least};
use crate::planner;
use crate::verdict::{plain, verdict};

const P1_TABLE: [u16; 9] = [4, 1, 4, 8, 3, 8, 8, 1, 100];
const P1_PLAN: [u16; 8] = [1, 2, 2, 2, 1, 3, 0, 0];

const W1: [u8; 44] = [
    0, 1, 0, 4, 0, 16, 0, 2, 0, 28, 0, 1, 0, 36, 0, 2, // contents
    0, 4, 0, 1, 0, 2, 0, 4, 0, 1, 0, 3, // partitions
    0, 1, 0, 1, 0, 4, 0, 4, // tasks
    0, 1, 0, 2, 0, 2, 0, 2, // runs
];

fn built(third: [u16; 2]) -> (Answer, Vec<u16>) {
    let mut parts = P1_TABLE;
    parts[7..].copy_from_slice(&third);
    let mut out = vec![77; 9];
    let answer = build(1, &parts, &mut out);
    (answer, out)
}

#[test]
fn p1_p2_p3() {
    let good = Answer::good([8, 0, 0, 0]);
    assert_eq!(built([1, 100]), (good, [&P1_PLAN[..], &[77]].concat()));
    assert_eq!(built([3, 8]), (good, vec![1, 2, 2, 2, 1, 3, 3, 3, 77]));
    assert_eq!(built([1, 2]), (Answer::refused(11), vec![77; 9]));
    assert_eq!(check(1, 1, &P1_PLAN, &P1_TABLE), Answer::good([0; 4]));
}

#[test]
fn p4() {
    let mut out = [77; 6];
    let answer = build(1, &[4, 1, 1, 6, 1, 1], &mut out);
    assert_eq!((answer, out), (Answer::refused(10), [77; 6]));
}

#[test]
fn p5() {
    let answer = check(1, 1, &[1, 1, 0, 0, 0, 0, 1, 1], &[4, 1, 2]);
    assert_eq!(answer, Answer::new(9, [1, 1, 1, 2]));
}

#[test]
fn s1() {
    let found = [0, 5, 8, 13, 14].map(|t| least(1, &P1_PLAN, 2, t));
    let wanted = [0, 0, 3, 3, 4].map(|count| Answer::good([count, 0, 0, 0]));
    assert_eq!(found, wanted);
    assert_eq!(held(1, &P1_PLAN, 2, 3, 8), Answer::good([3, 0, 0, 0]));
}

#[test]
fn v1_v2() {
    let judged = |deadline, place| {
        let tasks = [2, 2, 8, 16, 2, 2, deadline, 32];
        verdict(1, 1, &P1_PLAN, &P1_TABLE, &tasks, place)
    };
    assert_eq!(judged(13, 1), Answer::good([8, 0, 0, 0]));
    assert_eq!(judged(13, 2), Answer::good([0, 0, 0, 0]));
    assert_eq!(judged(14, 2), Answer::good([14, 0, 0, 0]));
    assert_eq!(judged(14, 0), Answer::refused_at(7, 0));
    assert_eq!(judged(14, 3), Answer::refused_at(7, 0));
}

/// What both engines say of the task at the last place of a table: the point and the tick.
fn both(plan: &[u16], parts: &[u16], tasks: &[[u16; 4]]) -> [u64; 2] {
    let place = tasks.len();
    [verdict, plain].map(|engine| {
        let answer = engine(1, 1, plan, parts, &tasks.concat(), place);
        assert_eq!(answer, Answer::good([answer.first, 0, 0, 0]));
        answer.first
    })
}

/// Of partition 2, least(t) is 0 up to t 5, then 1, 2 and 3 at 6, 7 and 8, and 4 first at 14. V1's
/// demand is 2 at every t; V2's is 4 up to t 16, which is a scheduling point where D is above it.
#[test]
fn v1_v2_plain() {
    let judged = |tasks: &[[u16; 4]]| both(&P1_PLAN, &P1_TABLE, tasks);
    let first = [2, 2, 8, 16];
    assert_eq!(judged(&[first]), [8, 7]);
    assert_eq!(judged(&[first, [2, 2, 13, 32]]), [0, 0]);
    assert_eq!(judged(&[first, [2, 2, 14, 32]]), [14, 14]);
    assert_eq!(judged(&[first, [2, 2, 17, 32]]), [16, 14]);
    // Of partition 1, least(t) is 1 first at 4; of partition 3 at 8.
    let [other, another] = [[1, 1, 4, 4], [3, 1, 9, 9]];
    assert_eq!(judged(&[first, other]), [4, 4]);
    assert_eq!(judged(&[first, other, another]), [9, 8]);
    let last = [2, 2, 17, 32];
    assert_eq!(judged(&[first, other, another, last]), [16, 14]);
    // D 1 and D = C: least(1) and least(3) are 0.
    assert_eq!(judged(&[[2, 1, 1, 16]]), [0, 0]);
    assert_eq!(judged(&[[2, 3, 3, 16]]), [0, 0]);
}

/// In a plan of one tick that is its own, least(t) is t.
#[test]
fn plain_in_one_tick() {
    let judged = |tasks: &[[u16; 4]]| both(&[1], &[1, 1, 1], tasks);
    // D 1: demand(1) is 1 alone, and 2 behind another task.
    assert_eq!(judged(&[[1, 1, 1, 1]]), [1, 1]);
    assert_eq!(judged(&[[1, 1, 9, 9], [1, 1, 1, 9]]), [0, 0]);
    // D = C: demand(3) is 3.
    assert_eq!(judged(&[[1, 3, 3, 5]]), [3, 3]);
    // demand(t) is 4 up to t 5, the first scheduling point.
    assert_eq!(judged(&[[1, 3, 3, 5], [1, 1, 9, 9]]), [5, 4]);
    // demand(4) is 4, demand(5) is 6: what holds at 4 doesn't at D.
    assert_eq!(judged(&[[1, 2, 4, 4], [1, 2, 5, 9]]), [4, 4]);
    // demand(t) is 3 up to t 100, the first scheduling point.
    assert_eq!(judged(&[[1, 1, 100, 100], [1, 2, 200, 200]]), [100, 3]);
}

#[test]
fn both_engines_refuse_alike() {
    let refused = |plan: &[u16], cycle: u16, tasks: &[u16], place: usize| {
        let answers =
            [verdict, plain].map(|engine| engine(1, 1, plan, &[cycle, 1, 2], tasks, place));
        assert_eq!(answers[0], answers[1]);
        answers[0]
    };
    let [bad, good] = [[1, 0, 4, 4], [1, 1, 4, 4]];
    let at = Answer::refused_at;
    // Each has the later ones' faults too, up to the plan that doesn't serve.
    assert_eq!(refused(&[1, 2], 3, &bad[..3], 0), Answer::refused(3));
    assert_eq!(refused(&[1, 2], 3, &bad, 0), at(6, 1));
    assert_eq!(refused(&[1, 2], 1, &bad, 0), at(7, 1));
    assert_eq!(refused(&[1, 2], 1, &good, 0), at(7, 0));
    assert_eq!(refused(&[1, 2], 1, &good, 2), at(7, 0));
    assert_eq!(refused(&[1, 2], 1, &[], 1), at(7, 0));
    assert_eq!(refused(&[1, 2], 1, &good, 1), at(8, 2));
    let short = Answer::new(9, [1, 1, 0, 1]);
    assert_eq!(refused(&[1, 0], 1, &good, 1), short);
    // An idle plan serves no partition.
    let idle = Answer::new(9, [1, 0, 0, 1]);
    assert_eq!(refused(&[0], 1, &good, 1), idle);
}

#[test]
fn w1() {
    let wanted = Answer {
        fifth: 1,
        ..Answer::good([4, 2, 1, 2])
    };
    assert_eq!(read(&W1), wanted);
    let found = [0, 1, 2, 3].map(|which| section(&W1, which));
    let bodies = [[16, 28], [28, 36], [36, 44], [0, 0]];
    assert_eq!(
        found,
        bodies.map(|[from, to]| Answer::good([from, to, 0, 0]))
    );
    let mut bad = W1;
    bad[27] = 0;
    for which in 0..4 {
        assert_eq!(section(&W1[..15], which), Answer::refused(1));
        assert_eq!(section(&bad, which), Answer::refused_at(6, 2));
    }
    let mut out = [77; 45];
    let parts = [4, 1, 2, 4, 1, 3];
    let answer = write(1, 4, &parts, &[1, 1, 4, 4], &[1, 2, 2, 2], &mut out);
    assert_eq!(answer, Answer::good([44, 0, 0, 0]));
    assert_eq!((&out[..44], out[44]), (&W1[..], 77));
}

#[test]
fn w1_planned() {
    let text = b"partition 4 1/2\npartition 4 1/3\ntask 1 1 4 4\n";
    assert_eq!(planner::answer(1, text), W1);
}

#[test]
fn w1_listing() {
    let listing = "frame 4\n\
                   partition 1 wants 2 in 4 least 2\n\
                   partition 2 wants 2 in 4 least 2\n\
                   task 1 partition 1 pass 4 tick 3\n";
    assert_eq!(text(&W1), listing);
    assert_eq!(text(&W1[..15]), "refused 1\n");
}
