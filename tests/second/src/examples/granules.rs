//! Granules, ask 5 of document 02: the worked examples of document 01 with other g, and more by hand.

use super::{P1_PLAN, P1_TABLE};
use crate::answer::Answer;
use crate::builder::build;
use crate::plan::check;
use crate::records;
use crate::verdict::{plain, verdict};

const OUTSIDE: [u64; 8] = [
    0,
    17,
    65_536,
    65_537,
    1 << 32,
    (1 << 32) + 1,
    1 << 63,
    u64::MAX,
];

/// What the builder makes of nine ticks.
fn built(granule: u64, parts: &[u16]) -> (Answer, Vec<u16>) {
    let mut out = vec![77; 9];
    let answer = build(granule, parts, &mut out);
    (answer, out)
}

fn plan(ticks: &[u16]) -> (Answer, Vec<u16>) {
    let answer = Answer::good([ticks.len() as u64, 0, 0, 0]);
    (answer, [ticks, &[77; 9][ticks.len()..]].concat())
}

fn refused(number: u64) -> (Answer, Vec<u16>) {
    (Answer::refused(number), vec![77; 9])
}

#[test]
fn p1_wants() {
    let partitions = records::partitions(&P1_TABLE).unwrap_or_default();
    let wants = |granule| -> Vec<u64> { partitions.iter().map(|one| one.wants(granule)).collect() };
    assert_eq!(wants(1), [1, 3, 1]);
    assert_eq!(wants(2), [2, 4, 2]);
    assert_eq!(wants(3), [3, 3, 3]);
    assert_eq!(wants(4), [4, 4, 4]);
    assert_eq!(wants(16), [16, 16, 16]);
}

/// With g 2 P1 wants 4 + 4 + 2 = 10 of 8 ticks, and its first two partitions want all.
#[test]
fn p1_built() {
    assert_eq!(built(1, &P1_TABLE), plan(&P1_PLAN));
    for granule in 2..=16 {
        assert_eq!(built(granule, &P1_TABLE), refused(11));
    }
    assert_eq!(built(2, &P1_TABLE[..6]), plan(&[1, 1, 2, 2, 1, 1, 2, 2]));
    assert_eq!(built(3, &P1_TABLE[..6]), refused(11));
    assert_eq!(built(3, &P1_TABLE[..3]), plan(&[1, 1, 1, 0]));
    assert_eq!(built(4, &P1_TABLE[..3]), plan(&[1, 1, 1, 1]));
    assert_eq!(built(5, &P1_TABLE[..3]), refused(11));
}

/// "Granules size the share only; windows need not start on them": both partitions want two ticks,
/// and those of the second stand apart.
#[test]
fn windows_anywhere() {
    let parts = [3, 1, 3, 6, 1, 100];
    assert_eq!(built(1, &parts), plan(&[1, 2, 0, 1, 0, 0]));
    assert_eq!(built(2, &parts), plan(&[1, 1, 2, 1, 1, 2]));
}

#[test]
fn p1_checked() {
    assert_eq!(check(1, 1, &P1_PLAN, &P1_TABLE), Answer::good([0; 4]));
    for wanted in 2..=16 {
        let short = Answer::new(9, [1, 0, 1, wanted]);
        assert_eq!(check(1, wanted, &P1_PLAN, &P1_TABLE), short);
    }
    // Partitions 2 and 3 alone, under other names: 3 and 1 of 8 ticks.
    let others = [0, 1, 1, 1, 0, 2, 0, 0];
    let checked = |granule| check(1, granule, &others, &P1_TABLE[3..]);
    assert_eq!(checked(1), Answer::good([0; 4]));
    assert_eq!(checked(2), Answer::new(9, [1, 0, 3, 4]));
    assert_eq!(checked(3), Answer::new(9, [2, 0, 1, 3]));
}

/// P5's stretches of 4 ticks hold 2, 1, 0, 1, 2, 3, 4 and 3 from the starts 0 to 7.
#[test]
fn p5_checked() {
    let checked = |granule, num| check(1, granule, &[1, 1, 0, 0, 0, 0, 1, 1], &[4, num, 4]);
    assert_eq!(checked(1, 2), Answer::new(9, [1, 1, 1, 2]));
    assert_eq!(checked(1, 1), Answer::new(9, [1, 2, 0, 1]));
    assert_eq!(checked(2, 1), Answer::new(9, [1, 1, 1, 2]));
    assert_eq!(checked(3, 1), Answer::new(9, [1, 0, 2, 3]));
    assert_eq!(checked(3, 4), Answer::new(9, [1, 0, 2, 6]));
}

/// Partition 2 has a cycle of 2 ticks: with g 3 every start falls short, if partition 1 doesn't.
#[test]
fn more_than_a_cycle() {
    let table = [4, 1, 4, 2, 1, 2];
    let judged = |ticks: &[u16]| {
        let tasks = [2, 1, 8, 8];
        let answers = [verdict, plain].map(|engine| engine(1, 3, ticks, &table, &tasks, 1));
        assert_eq!(answers, [check(1, 3, ticks, &table); 2]);
        answers[0]
    };
    let serves_the_first = [1, 1, 1, 0, 1, 1, 1, 2];
    assert_eq!(judged(&serves_the_first), Answer::new(9, [2, 0, 0, 3]));
    let later = [1, 1, 1, 0, 1, 1, 0, 2];
    assert_eq!(judged(&later), Answer::new(9, [1, 3, 2, 3]));
    // All ticks of the cycle are not enough.
    assert_eq!(judged(&[1, 1, 1, 1]), Answer::new(9, [2, 0, 0, 3]));
    let own = check(1, 3, &[1, 1, 1, 1], &table[3..]);
    assert_eq!(own, Answer::new(9, [1, 0, 2, 3]));
    assert_eq!(built(3, &table), refused(11));
    assert_eq!(built(3, &table[3..]), refused(11));
}

/// Partition 2 owns two ticks of eight: least(t) is 1 at 7 and 2 at 8.
#[test]
fn verdicts() {
    let table = [4, 1, 4, 8, 1, 8, 8, 1, 100];
    let ticks = [1, 1, 2, 2, 1, 1, 3, 3];
    assert_eq!(built(2, &table), plan(&ticks));
    let judged = |granule, c| {
        let answers =
            [verdict, plain].map(|engine| engine(1, granule, &ticks, &table, &[2, c, 8, 8], 1));
        answers.map(|answer| (answer.number, answer.first))
    };
    for granule in [1, 2] {
        assert_eq!(judged(granule, 1), [(0, 8), (0, 7)]);
        assert_eq!(judged(granule, 2), [(0, 8), (0, 8)]);
        assert_eq!(judged(granule, 3), [(0, 0), (0, 0)]);
    }
    assert_eq!(judged(3, 1), [(9, 1), (9, 1)]);
}

#[test]
fn refused_behind_3_and_before_6() {
    for granule in OUTSIDE {
        assert_eq!(built(granule, &[]), refused(3));
        assert_eq!(built(granule, &P1_TABLE[..4]), refused(3));
        assert_eq!(built(granule, &[1, 1, 1].repeat(17)), refused(3));
        // 6, 10, 11, 12, and a good one.
        for parts in [
            &[0, 1, 1][..],
            &[4, 1, 1, 6, 1, 1],
            &[4, 1, 1, 4, 1, 1],
            &[10, 1, 1],
            &P1_TABLE,
        ] {
            assert_eq!(built(granule, parts), refused(21));
        }
    }
}

#[test]
fn plans_refused_behind_3_and_before_6() {
    let [bad, good] = [[1, 0, 4, 4], [1, 1, 4, 4]];
    for granule in OUTSIDE {
        let judged = |ticks: &[u16], cycle: u16, tasks: &[u16], place: usize| {
            [verdict, plain].map(|engine| engine(1, granule, ticks, &[cycle, 1, 2], tasks, place))
        };
        let checked = |ticks: &[u16], cycle: u16| check(1, granule, ticks, &[cycle, 1, 2]).number;
        assert_eq!(judged(&[1, 2], 3, &bad[..3], 0), [Answer::refused(3); 2]);
        assert_eq!(judged(&[], 3, &bad, 0), [Answer::refused(3); 2]);
        assert_eq!([checked(&[], 3), checked(&[1; 4097], 3)], [3, 3]);
        // 6, 7, 7 with place 0, 8, 9, and a pass.
        for (ticks, cycle, tasks, place) in [
            ([1, 2], 3, bad, 0),
            ([1, 2], 1, bad, 0),
            ([1, 2], 1, good, 0),
            ([1, 2], 1, good, 1),
            ([1, 0], 1, good, 1),
            ([1, 1], 1, good, 1),
        ] {
            let wanted = [Answer::refused(21); 2];
            assert_eq!(judged(&ticks, cycle, &tasks, place), wanted);
            assert_eq!(checked(&ticks, cycle), 21);
        }
    }
}
