//! The page as text, reckoned by hand.

use super::{P1_PLAN, P1_TABLE, W1};
use crate::inputs::files::{put, Tables};
use crate::ticks;
use crate::why::{place, text};

const HEAD: &str = "   point   needs     has   short   worst stretch in wall ticks";

fn file(edition: u64, plan: &[u16], parts: &[u16], tasks: &[[u16; 4]]) -> Vec<u8> {
    let tables = Tables {
        edition,
        frame: plan.len() as u64,
        parts: parts.to_vec(),
        tasks: tasks.concat(),
        runs: ticks::to_runs(plan),
    };
    tables.bytes()
}

/// The text of the last task.
fn last(edition: u64, plan: &[u16], parts: &[u16], tasks: &[[u16; 4]]) -> String {
    let bytes = file(edition, plan, parts, tasks);
    text(tasks.len() as u64, &bytes)
}

fn lines(lines: &[&str]) -> String {
    lines.join("\n") + "\n"
}

/// Two tasks of P1's partition 2.
fn of_p1(c: u16, d: u16) -> [[u16; 4]; 2] {
    [[2, 2, 8, 16], [2, c, d, 32]]
}

/// 8 ticks from any start hold three of partition 2; 14 ticks hold four, and 13 from 4 on three.
#[test]
fn v1_v2() {
    let of = |tasks: &[[u16; 4]]| last(1, &P1_PLAN, &P1_TABLE, tasks);
    let first = [
        "task 1 partition 2 passes",
        "at tick 8 it needs 2 and can be sure of 3: 1 to spare",
    ];
    assert_eq!(of(&of_p1(2, 13)[..1]), lines(&first));
    let late = [
        "task 2 partition 2 fails",
        HEAD,
        "      13       4       3       1   4 to 16  <- tightest",
        "at tick 13 it needs 4 and can be sure of 3: 1 short; the worst stretch starts at tick 4",
    ];
    assert_eq!(of(&of_p1(2, 13)), lines(&late));
    let just = [
        "task 2 partition 2 passes",
        "at tick 14 it needs 4 and can be sure of 4: 0 to spare",
    ];
    assert_eq!(of(&of_p1(2, 14)), lines(&just));
    // A second release before tick 17.
    let two = [
        "task 2 partition 2 fails",
        HEAD,
        "      16       7       6       1   0 to 15  <- tightest",
        "      17       9       6       3   0 to 16",
        "at tick 16 it needs 7 and can be sure of 6: 1 short; the worst stretch starts at tick 0",
    ];
    assert_eq!(of(&of_p1(5, 17)), lines(&two));
}

/// In a plan of one tick that is its own t ticks hold t, in both editions.
fn of_one_tick(tasks: &[[u16; 4]], wanted: &[&str]) {
    for edition in [1, 2] {
        assert_eq!(last(edition, &[1], &[1, 1, 1], tasks), lines(wanted));
    }
}

/// Each multiple of the period lacks two ticks: the mark stands at the lowest alone.
#[test]
fn equal_shortages() {
    let equal = [
        "task 2 partition 1 fails",
        HEAD,
        "       4       6       4       2   0 to 3  <- tightest",
        "       8      10       8       2   0 to 7",
        "       9      14       9       5   0 to 8",
        "at tick 4 it needs 6 and can be sure of 4: 2 short; the worst stretch starts at tick 0",
    ];
    of_one_tick(&[[1, 4, 4, 4], [1, 2, 9, 9]], &equal);
}

/// 5 ticks and 2 for each four: the point in the middle lacks least.
#[test]
fn tightest_in_the_middle() {
    let middle = [
        "task 2 partition 1 fails",
        HEAD,
        "       4       7       4       3   0 to 3",
        "       8       9       8       1   0 to 7  <- tightest",
        "       9      11       9       2   0 to 8",
        "at tick 8 it needs 9 and can be sure of 8: 1 short; the worst stretch starts at tick 0",
    ];
    of_one_tick(&[[1, 2, 4, 4], [1, 5, 9, 9]], &middle);
}

/// 127 tasks that ask for 4,095 ticks each, once up to tick 4,095 and twice behind it: 520,065 ticks
/// and 1,040,130, and seven.
#[test]
fn seven_digits() {
    let wide = [
        "task 128 partition 1 fails",
        HEAD,
        "    4095  520072    4095  515977   0 to 4094  <- tightest",
        "    4096 1040137    4096 1036041   0 to 4095",
        "at tick 4095 it needs 520072 and can be sure of 4095: 515977 short; \
         the worst stretch starts at tick 0",
    ];
    let mut tasks = vec![[1, 4095, 4095, 4095]; 127];
    tasks.push([1, 7, 4096, 4096]);
    of_one_tick(&tasks, &wide);
}

/// A period of one tick: each tick is a point, and lacks one.
#[test]
fn the_most_rows() {
    let text = last(1, &[1], &[1, 1, 1], &[[1, 1, 1, 1], [1, 1, 4096, 4096]]);
    let lines: Vec<&str> = text.lines().collect();
    assert_eq!(lines.len(), 4099);
    let marked = "       1       2       1       1   0 to 0  <- tightest";
    assert_eq!(lines[2], marked);
    let row = "    1000    1001    1000       1   0 to 999";
    assert_eq!(lines[1001], row);
    let row = "    4096    4097    4096       1   0 to 4095";
    assert_eq!(lines[4097], row);
    let end = "at tick 1 it needs 2 and can be sure of 1: 1 short; \
               the worst stretch starts at tick 0";
    assert_eq!(lines[4098], end);
    assert_eq!(text.matches("tightest").count(), 1);
}

/// A stretch from the frame's last tick on, one that goes on into the next frame, and one that ends
/// where the frame does.
#[test]
fn stretches() {
    let of = |plan: &[u16], task: [u16; 4], row: &str, end: &str| {
        let found = last(1, plan, &[plan.len() as u16, 1, 100], &[task]);
        assert_eq!(found, lines(&["task 1 partition 1 fails", HEAD, row, end]));
    };
    of(
        &[1, 1, 1, 0],
        [1, 1, 1, 9],
        "       1       1       0       1   3 to 3  <- tightest",
        "at tick 1 it needs 1 and can be sure of 0: 1 short; the worst stretch starts at tick 3",
    );
    // Ticks 2, 3, 6 are idle, 4 and 5 are its own.
    of(
        &[1, 1, 0, 0],
        [1, 3, 5, 9],
        "       5       3       2       1   2 to 6  <- tightest",
        "at tick 5 it needs 3 and can be sure of 2: 1 short; the worst stretch starts at tick 2",
    );
    of(
        &[1, 1, 0, 0],
        [1, 2, 2, 9],
        "       2       2       0       2   2 to 3  <- tightest",
        "at tick 2 it needs 2 and can be sure of 0: 2 short; the worst stretch starts at tick 2",
    );
}

/// Tick 1 of four alone serves in edition 2. Seven ticks from 2 on hold one such tick; in edition 1
/// they hold three ticks, as do those from 1 on, and none hold fewer.
#[test]
fn by_the_files_edition() {
    let of = |edition| last(edition, &[1, 1, 0, 0], &[4, 1, 4], &[[1, 2, 7, 9]]);
    let two = [
        "task 1 partition 1 fails",
        HEAD,
        "       7       2       1       1   2 to 8  <- tightest",
        "at tick 7 it needs 2 and can be sure of 1: 1 short; the worst stretch starts at tick 2",
    ];
    let one = [
        "task 1 partition 1 passes",
        "at tick 7 it needs 2 and can be sure of 3: 1 to spare",
    ];
    assert_eq!([of(1), of(2)], [lines(&one), lines(&two)]);
}

#[test]
fn words_that_name_no_task() {
    assert_eq!(
        ["1", "00002", "129"].map(|word| place(&[word])),
        [1, 2, 129]
    );
    for words in [&[][..], &[""], &["x"], &["000001"], &["1", "1"], &["1", ""]] {
        assert_eq!(place(words), 0, "{words:?}");
    }
    let bytes = file(1, &P1_PLAN, &P1_TABLE, &of_p1(2, 13));
    for place in [0, 3, 4, 128, 129, 99_999] {
        assert_eq!(text(place, &bytes), "refused 7\n", "{place}");
    }
    assert_ne!(text(1, &bytes), "refused 7\n");
}

/// W1 with one number changed, at each place of its contents and bodies, for its task and for none.
#[test]
fn refused() {
    let of = |at: usize, number: u16| {
        let mut bytes = W1;
        put(&mut bytes, at, number);
        [1, 0].map(|place| text(place, &bytes))
    };
    let refused = |numbers: [u64; 2]| numbers.map(|number| format!("refused {number}\n"));
    assert_eq!(of(0, 3), refused([2, 2]));
    assert_eq!(of(2, 0), refused([3, 3]));
    assert_eq!(of(12, 37), refused([4, 4]));
    // Three runs.
    assert_eq!(of(14, 3), refused([5, 5]));
    assert_eq!(of(16, 5), refused([6, 6]));
    assert_eq!(of(30, 0), refused([7, 7]));
    assert_eq!(of(38, 3), refused([8, 8]));
    // 3 of 4 ticks: the file is accepted, but its plan doesn't serve.
    let mut bytes = W1;
    put(&mut bytes, 18, 3);
    put(&mut bytes, 20, 4);
    assert_eq!([1, 0].map(|place| text(place, &bytes)), refused([9, 7]));
    for place in [0, 1] {
        assert_eq!(text(place, &W1[..15]), "refused 1\n");
        assert_eq!(text(place, &W1[..43]), "refused 5\n");
        assert_eq!(text(place, &[&W1[..], &[0]].concat()), "refused 5\n");
    }
}
