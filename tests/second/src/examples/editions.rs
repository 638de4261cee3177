//! The switch tick, ask 6 of document 02, with a pencil: in the worked examples of document 01, and
//! in plans at the rule's ends.

use super::{P1_PLAN, P1_TABLE, W1};
use crate::answer::Answer;
use crate::curve::curve;
use crate::editions::Edition;
use crate::file::{read, section, write};
use crate::inputs::editions::OUTSIDE;
use crate::inputs::{plans, tables};
use crate::listing::text;
use crate::plan::{check, held, least};
use crate::rng::Rng;
use crate::service::Service;
use crate::verdict::{plain, verdict};

fn good(first: u64) -> Answer {
    Answer::good([first, 0, 0, 0])
}

/// Whom each tick of a plan serves in edition 2.
fn served(plan: &[u16]) -> Vec<u16> {
    let service = Service::new(Edition::Two, plan);
    (0..plan.len()).map(|tick| service.at(tick)).collect()
}

/// P1: partition 1 comes behind idle ticks and behind 2, 2 behind 1, and 3 behind 1.
#[test]
fn p1_served() {
    assert_eq!(served(&P1_PLAN), [0, 0, 2, 2, 0, 0, 0, 0]);
    let owned = Service::new(Edition::One, &P1_PLAN);
    assert!((0..8).all(|tick| owned.at(tick) == P1_PLAN[tick]));
}

/// "A plan of one run has no switch tick", so none has a plan of one tick.
#[test]
fn one_tick_and_one_run() {
    for plan in [
        vec![1],
        vec![0],
        vec![65535],
        vec![7; 5],
        vec![0; 4],
        vec![],
    ] {
        assert_eq!(served(&plan), plan);
    }
}

#[test]
fn all_switch_ticks() {
    for plan in [&[1, 2][..], &[1, 0], &[1, 2, 1, 2], &[3, 0, 2, 0, 1, 4]] {
        assert_eq!(served(plan), vec![0; plan.len()]);
        for p in 1..=4 {
            assert_eq!(held(2, plan, p, 1, 100), good(0));
            assert_eq!(least(2, plan, p, 100), good(0));
        }
        assert_eq!(least(2, plan, 0, 100), good(100));
    }
    let short = Answer::new(9, [1, 0, 0, 2]);
    assert_eq!(check(2, 1, &[1, 2, 1, 2], &[4, 1, 2, 4, 1, 2]), short);
    let both = Answer::good([0; 4]);
    assert_eq!(check(1, 1, &[1, 2, 1, 2], &[4, 1, 2, 4, 1, 2]), both);
}

/// "the frame's end joined to its start".
#[test]
fn the_ends_of_the_frame() {
    // First and last run of one owner: no switch at the frame's start.
    assert_eq!(served(&[1, 1, 2, 1]), [1, 1, 0, 0]);
    assert_eq!(served(&[1, 2, 2, 1]), [1, 0, 2, 0]);
    assert_eq!(served(&[2, 0, 2]), [2, 0, 0]);
    // Of two owners, and an idle end.
    assert_eq!(served(&[1, 1, 2, 2]), [0, 1, 0, 2]);
    assert_eq!(served(&[1, 1, 1, 0]), [0, 1, 1, 0]);
    assert_eq!(served(&[0, 1, 1, 1]), [0, 0, 1, 1]);
}

/// "another partition or to idle": between two runs of one owner, too.
#[test]
fn idle_between() {
    assert_eq!(served(&[1, 1, 0, 1, 1]), [1, 1, 0, 0, 1]);
    assert_eq!(served(&[0, 1, 1, 0, 1, 0]), [0, 0, 1, 0, 0, 0]);
    assert_eq!(served(&[5, 5, 0, 0, 5, 5, 6]), [0, 5, 0, 0, 0, 5, 0]);
}

/// Partition 2 is served in the ticks 2 and 3 of 8; six ticks lie between.
#[test]
fn p1_held_and_least() {
    let held = |p, s, n| held(2, &P1_PLAN, p, s, n).first;
    assert_eq!([held(2, 0, 8), held(2, 3, 8), held(2, 3, 7)], [2, 2, 1]);
    assert_eq!([held(2, 11, 7), held(2, 1, 2), held(2, 2, 10)], [1, 1, 4]);
    assert_eq!([held(1, 0, 80), held(3, 5, 80), held(4, 0, 8)], [0, 0, 0]);
    // Idle and switch ticks together.
    assert_eq!([held(0, 0, 8), held(0, 1, 3), held(0, 4, 6)], [6, 1, 6]);
    let least = |p, t| least(2, &P1_PLAN, p, t).first;
    let second = [0, 6, 7, 8, 14, 15, 16].map(|t| least(2, t));
    assert_eq!(second, [0, 0, 1, 2, 2, 3, 4]);
    assert_eq!([least(1, 99), least(3, 99), least(0, 3)], [0, 0, 1]);
}

/// P5's plan is served in the ticks 0, 1 and 7. Stretches of 6 hold 2, 1, 1, 2, 3, 3, 3 and 3 from the
/// starts 0 to 7; in edition 1 they hold 2 at least.
#[test]
fn p5_checked() {
    let plan = [1, 1, 0, 0, 0, 0, 1, 1];
    let checked = |edition, m, num| check(edition, 1, &plan, &[m, num, m]);
    assert_eq!(served(&plan), [1, 1, 0, 0, 0, 0, 0, 1]);
    assert_eq!(checked(1, 6, 2), Answer::good([0; 4]));
    assert_eq!(checked(2, 6, 2), Answer::new(9, [1, 1, 1, 2]));
    assert_eq!(checked(2, 6, 1), Answer::good([0; 4]));
    assert_eq!(checked(2, 6, 3), Answer::new(9, [1, 0, 2, 3]));
    // Four of 8 ticks, and three.
    assert_eq!(checked(1, 8, 4), Answer::good([0; 4]));
    assert_eq!(checked(2, 8, 4), Answer::new(9, [1, 0, 3, 4]));
    assert_eq!(checked(2, 8, 3), Answer::good([0; 4]));
}

/// "held" counts service ticks, "wanted" is q by the call's granule.
#[test]
fn p1_checked() {
    let short = |held, wanted| Answer::new(9, [1, 0, held, wanted]);
    assert_eq!(check(2, 1, &P1_PLAN, &P1_TABLE), short(0, 1));
    assert_eq!(check(2, 16, &P1_PLAN, &P1_TABLE), short(0, 16));
    // Partition 2 alone, under another name.
    let alone = [0, 1, 1, 1, 0, 0, 0, 0];
    let checked = |edition, granule, num| check(edition, granule, &alone, &[8, num, 8]);
    assert_eq!([checked(1, 1, 3), checked(1, 3, 1)], [good(0); 2]);
    assert_eq!([checked(2, 1, 3), checked(2, 3, 1)], [short(2, 3); 2]);
    assert_eq!([checked(2, 1, 2), checked(2, 2, 1)], [good(0); 2]);
}

/// Each edition's two engines, of the task at the last place: number, point and tick.
fn judged(edition: u64, plan: &[u16], parts: &[u16], tasks: &[[u16; 4]]) -> [u64; 3] {
    let numbers = tasks.concat();
    let [point, tick] =
        [verdict, plain].map(|engine| engine(edition, 1, plan, parts, &numbers, tasks.len()));
    assert_eq!(point.number, tick.number);
    [point.number, point.first, tick.first]
}

/// Partition 2's ticks of P1 alone. V1's task needs two ticks, which any 8 hold and some 7 don't;
/// with V2's they need four, which any 16 hold and some 15 don't.
#[test]
fn v1_v2_of_two_service_ticks() {
    let [plan, parts] = [&[0, 1, 1, 1, 0, 0, 0, 0][..], &[8, 1, 4]];
    let first = [1, 2, 8, 16];
    let judged = |edition, tasks: &[[u16; 4]]| judged(edition, plan, parts, tasks);
    assert_eq!(judged(1, &[first]), [0, 8, 7]);
    assert_eq!(judged(2, &[first]), [0, 8, 8]);
    assert_eq!(judged(1, &[first, [1, 2, 14, 32]]), [0, 14, 14]);
    assert_eq!(judged(2, &[first, [1, 2, 14, 32]]), [0, 0, 0]);
    assert_eq!(judged(2, &[first, [1, 2, 15, 32]]), [0, 0, 0]);
    assert_eq!(judged(2, &[first, [1, 2, 16, 32]]), [0, 16, 16]);
    assert_eq!(judged(2, &[[1, 2, 7, 16]]), [0, 0, 0]);
    assert_eq!(judged(2, &[[1, 1, 7, 16]]), [0, 7, 7]);
    // P1 itself: its partition 1 is never served, so that no task of it is judged.
    let nine = super::verdict(2, 1, &P1_PLAN, &P1_TABLE, &[2, 1, 8, 8], 1);
    assert_eq!(nine, Answer::new(9, [1, 0, 0, 1]));
}

/// Accepted in both editions. Any 3 ticks hold two in edition 1 and one in edition 2, any 4 hold
/// three and two.
#[test]
fn passes_in_edition_1_and_fails_in_2() {
    let [plan, parts] = [&[1, 1, 1, 0][..], &[4, 1, 2]];
    let judged = |edition, task| judged(edition, plan, parts, &[task]);
    assert_eq!(judged(1, [1, 2, 3, 4]), [0, 3, 3]);
    assert_eq!(judged(2, [1, 2, 3, 4]), [0, 0, 0]);
    assert_eq!(judged(2, [1, 2, 4, 4]), [0, 4, 4]);
    assert_eq!(judged(1, [1, 3, 4, 4]), [0, 4, 4]);
    assert_eq!(judged(2, [1, 3, 4, 4]), [0, 0, 0]);
}

/// W1 says edition 2.
fn w1_in_edition_2() -> [u8; 44] {
    let mut file = W1;
    file[1] = 2;
    file
}

#[test]
fn w1_in_both_editions() {
    let file = w1_in_edition_2();
    let read_as = |fifth| Answer {
        fifth,
        ..Answer::good([4, 2, 1, 2])
    };
    assert_eq!([read(&W1), read(&file)], [read_as(1), read_as(2)]);
    for which in 0..4 {
        assert_eq!(section(&file, which), section(&W1, which));
    }
    let tables = [&[4, 1, 2, 4, 1, 3][..], &[1, 1, 4, 4], &[1, 2, 2, 2]];
    let write = |edition, frame, out: &mut [u8]| {
        let [parts, tasks, runs] = tables;
        write(edition, frame, parts, tasks, runs, out)
    };
    let mut out = [77; 45];
    assert_eq!(write(2, 4, &mut out), good(44));
    assert_eq!((&out[..44], out[44]), (&file[..], 77));
    for edition in OUTSIDE {
        let mut out = [77; 45];
        for frame in [4, 0] {
            assert_eq!(write(edition, frame, &mut out[..44]), Answer::refused(2));
            assert_eq!(write(edition, frame, &mut out[..3]), Answer::refused(2));
        }
        assert_eq!(out, [77; 45]);
    }
    // Both partitions have two ticks of four, of which one is spent on switching.
    assert_eq!(text(&file), "refused 9\n");
}

/// W1 with shares of a quarter: in edition 2 any four ticks hold one of each partition, in 1 two.
#[test]
fn listed_by_the_files_edition() {
    let listing = |edition: u8| {
        let mut file = W1;
        [file[1], file[21], file[27]] = [edition, 4, 4];
        text(&file)
    };
    let lines = |least, tick| {
        format!(
            "frame 4\n\
             partition 1 wants 1 in 4 least {least}\n\
             partition 2 wants 1 in 4 least {least}\n\
             task 1 partition 1 pass 4 tick {tick}\n"
        )
    };
    assert_eq!([listing(1), listing(2)], [lines(2, 3), lines(1, 4)]);
    assert_eq!([listing(0), listing(3)], ["refused 2\n"; 2]);
}

/// 1 comes before 2 in a file, 3 behind it.
#[test]
fn a_file_is_refused_behind_1_and_before_3() {
    for edition in [0, 3, 256, 257, 258, 65535u16] {
        let mut file = W1;
        file[..2].copy_from_slice(&edition.to_be_bytes());
        file[3] = 0;
        assert_eq!(read(&file), Answer::refused(2));
        assert_eq!(read(&file[..16]), Answer::refused(2));
        assert_eq!(read(&file[..15]), Answer::refused(1));
    }
    let mut file = w1_in_edition_2();
    file[3] = 0;
    assert_eq!(read(&file), Answer::refused(3));
}

/// "in a call too": before all else, in the whole width, also where nothing is lent.
#[test]
fn calls_are_refused_first() {
    let two = Answer::refused(2);
    for edition in OUTSIDE {
        for plan in [&[][..], &[1, 2], &[0; 4097]] {
            assert_eq!(held(edition, plan, 1, 0, 5), two);
            assert_eq!(least(edition, plan, 1, 5), two);
            assert_eq!(curve(edition, plan, 1, 5, &mut []), two);
        }
        // 3, 21, 6, 7, 8, 9, and a pass.
        for (granule, plan, parts, tasks) in [
            (0, &[][..], &[][..], &[][..]),
            (1, &[1, 1], &[2, 1], &[1, 1, 2, 2]),
            (17, &[1, 1], &[2, 1, 1], &[1, 1, 2, 2]),
            (1, &[1, 1], &[3, 1, 1], &[1, 1, 2, 2]),
            (1, &[1, 1], &[2, 1, 1], &[1, 3, 2, 2]),
            (1, &[1, 2], &[2, 1, 1], &[1, 1, 2, 2]),
            (1, &[1, 0], &[2, 1, 1], &[1, 1, 2, 2]),
            (1, &[1, 1], &[2, 1, 1], &[1, 1, 2, 2]),
        ] {
            assert_eq!(check(edition, granule, plan, parts), two);
            for place in [0, 1, 2] {
                let answers = [verdict, plain]
                    .map(|engine| engine(edition, granule, plan, parts, tasks, place));
                assert_eq!(answers, [two; 2]);
            }
        }
    }
}

/// The last task of a table, in one edition: the number, which is the checker's, the point and the
/// tick.
fn last(edition: u64, plan: &[u16], parts: &[u16], tasks: &[u16]) -> [u64; 3] {
    let place = tasks.len() / 4;
    let judged = [verdict, plain].map(|engine| engine(edition, 1, plan, parts, tasks, place));
    let checked = check(edition, 1, plan, parts);
    assert_eq!(judged.map(|answer| answer.number), [checked.number; 2]);
    let [point, tick] = match checked.number {
        0 => judged.map(|answer| answer.first),
        _ => [0, 0],
    };
    [checked.number, point, tick]
}

/// A table and tasks by lot, in both editions. Counts what edition 2 accepts, what passes in it, and
/// what passes in edition 1 only.
fn hold_together(rng: &mut Rng, plan: &[u16], partitions: usize, seen: &mut [u64; 3]) {
    let parts = tables::partitions(rng, partitions, plan.len());
    let tasks = tables::tasks(rng, 2, partitions, 12);
    let [one, two] = [1, 2].map(|edition| last(edition, plan, &parts, &tasks));
    let input = (plan, &parts, &tasks, one, two);
    if two[0] == 0 {
        assert_eq!(one[0], 0, "{input:?}");
        seen[0] += 1;
    }
    if two[1] > 0 {
        let sooner = [1, 2].map(|at| 0 < one[at] && one[at] <= two[at]);
        assert_eq!(sooner, [true; 2], "{input:?}");
        seen[1] += 1;
    }
    seen[2] += u64::from(one[1] > 0 && two[1] == 0);
}

/// What holds in edition 2 holds in edition 1: no tick is service in 2 that isn't in 1. Every plan of
/// up to six ticks of one partition and of two.
#[test]
fn edition_2_is_never_easier() {
    let mut rng = Rng::new(3);
    let mut seen = [0; 3];
    for owners in [2, 3] {
        for plan in (1..=6).flat_map(|ticks| plans::every(ticks, owners)) {
            for _ in 0..12 {
                hold_together(&mut rng, &plan, owners as usize - 1, &mut seen);
            }
        }
    }
    assert!(seen.iter().all(|&times| times > 20), "{seen:?}");
}

/// The same of plans that serve their tables in edition 2 by making.
#[test]
fn what_serves_in_edition_2_serves_in_1() {
    let mut rng = Rng::new(12);
    let [mut passed, mut only_in_1] = [0; 2];
    for case in 0..3000 {
        let granule = 1 + case % 3;
        let served = plans::served(&mut rng, Edition::Two, granule, 3, 24);
        let partitions = served.parts.len() / 3;
        let tasks = tables::tasks(&mut rng, 2, partitions, 40);
        let [one, two] = [1, 2].map(|edition| {
            let plans::Served { plan, parts, .. } = &served;
            let judged = verdict(edition, granule, plan, parts, &tasks, 2);
            assert_eq!(judged.number, 0, "{edition} {served:?}");
            judged.first
        });
        passed += u64::from(two > 0);
        only_in_1 += u64::from(one > 0 && two == 0);
        assert!(two == 0 || 0 < one && one <= two, "{served:?} {tasks:?}");
    }
    assert!(passed > 200 && only_in_1 > 100, "{passed} {only_in_1}");
}
