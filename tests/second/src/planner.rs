//! From a share table's text to a plan file (docs/FORMAT.md), of the edition that the program's
//! words name.

use crate::answer::Answer;
use crate::editions::Edition;
use crate::limits::{CYCLE, FRAME};
use crate::service::Service;
use crate::share_table::{self, Wrong};
use crate::{builder, file, plan, records, ticks, words};

/// Without a word it is edition 1, and one word of up to five digits is that number; any others name
/// none.
pub fn edition(words: &[&str]) -> u64 {
    match words {
        [] => 1,
        [word] => words::number(word).unwrap_or(0),
        _ => 0,
    }
}

/// "The answer is the plan file, or one line".
pub fn answer(edition: u64, text: &[u8]) -> Vec<u8> {
    planned(edition, text).unwrap_or_else(|wrong| line(wrong).into_bytes())
}

/// Of 9 its four values are told too.
fn line(wrong: Wrong) -> String {
    match wrong {
        Wrong::Line(line, expected) => format!("line {line}: expected {expected}\n"),
        Wrong::Refused(Answer {
            number: 9,
            first: p,
            second: start,
            third: held,
            fourth: wanted,
            ..
        }) => format!("refused 9 partition {p} start {start} held {held} wanted {wanted}\n"),
        Wrong::Refused(refusal) => format!("refused {}\n", refusal.number),
    }
}

/// 2, then too many records, then 3, 21, 6 and 7 of the tables, then the builder's 10 and 11, and 9
/// of what it built.
fn planned(edition: u64, text: &[u8]) -> Result<Vec<u8>, Wrong> {
    let rule = Edition::of(edition)?;
    let table = share_table::read(text)?;
    let partitions = records::partitions(&table.parts)?;
    let tasks = records::tasks(&table.tasks)?;
    records::granule(table.g())?;
    records::partition_rules(&partitions, CYCLE)?;
    records::task_rules(&tasks, partitions.len())?;
    let mut plan = vec![0; FRAME];
    let built = builder::build(table.g(), &table.parts, &mut plan);
    if built.number != 0 {
        return Err(built.into());
    }
    plan.truncate(built.first as usize);
    // What is built always serves in edition 1, and counting that costs a frame times a cycle.
    if rule != Edition::One {
        plan::serves(&Service::new(rule, &plan), table.g(), &partitions)?;
    }
    let runs = ticks::to_runs(&plan);
    Ok(file::written(
        edition,
        built.first,
        &table.parts,
        &table.tasks,
        &runs,
    )?)
}

#[cfg(test)]
mod tests {
    use super::{answer, edition};
    use crate::editions::Edition;
    use crate::inputs::texts;
    use crate::limits::TEXT;
    use crate::rng::Rng;
    use crate::service::Service;
    use crate::{file, plan, ticks};

    fn of(edition: u64, text: &str) -> String {
        String::from_utf8_lossy(&answer(edition, text.as_bytes())).into_owned()
    }

    fn line(text: &str) -> String {
        of(1, text)
    }

    #[test]
    fn the_words() {
        assert_eq!(edition(&[]), 1);
        let digits = ["0", "1", "2", "3", "9"].map(|word| edition(&[word]));
        assert_eq!(digits, [0, 1, 2, 3, 9]);
        let longer = ["22", "01", "00002", "65537", "99999"].map(|word| edition(&[word]));
        assert_eq!(longer, [22, 1, 2, 65537, 99999]);
        for word in ["", "x", "000002", "1 ", "+1", "-1", "\u{661}", "edition"] {
            assert_eq!(edition(&[word]), 0, "{word}");
        }
        assert_eq!([edition(&["1", "1"]), edition(&["2", ""])], [0, 0]);
    }

    /// "2 now means neither 1 nor 2, in a call too": before all that a text can be refused for.
    #[test]
    fn an_edition_is_refused_first() {
        let long = "x".repeat(TEXT + 1);
        for text in ["partition 4 1/1\n", "", "x", "partition 0 1/1\n", &long] {
            for edition in [0, 3, 9] {
                assert_eq!(of(edition, text), "refused 2\n");
            }
        }
        assert_eq!(of(2, &long), "refused 3\n");
        assert_eq!(of(2, "x"), line("x"));
        for (text, number) in [
            ("granule 17\npartition 4 1/1\n", 21),
            ("partition 0 1/1\n", 6),
            ("partition 4 1/4\ntask 1 2 1 1\n", 7),
            ("partition 4 1/4\npartition 6 1/4\n", 10),
            ("partition 4 1/1\npartition 4 1/1\n", 11),
        ] {
            assert_eq!(of(2, text), format!("refused {number}\n"));
        }
    }

    /// P1's first cycle holds one tick of partition 1, which is spent on switching. A plan of one run
    /// has no switch tick, and its file differs from edition 1's in that number alone.
    #[test]
    fn what_was_built_is_checked_with_the_rule() {
        let p1 = "partition 4 1/4\npartition 8 3/8\npartition 8 1/100\n";
        let short =
            |held, wanted| format!("refused 9 partition 1 start 0 held {held} wanted {wanted}\n");
        assert_eq!(of(2, p1), short(0, 1));
        assert_eq!(of(2, "partition 8 3/4\n"), short(5, 6));
        // The plan is 2 2 1 2 2 1: each run of partition 1 is one tick.
        let apart = "partition 6 1/100\npartition 3 1/3\n";
        assert_eq!(of(2, &format!("granule 2\n{apart}")), short(0, 2));
        for text in [
            "partition 4 1/1\n",
            "granule 4\npartition 4 1/9\ntask 1 1 4 4\n",
        ] {
            let [one, two] = [1, 2].map(|edition| answer(edition, text.as_bytes()));
            assert_eq!(
                (one[..2].to_vec(), two[..2].to_vec()),
                (vec![0, 1], vec![0, 2])
            );
            assert_eq!(one[2..], two[2..]);
        }
    }

    #[test]
    fn what_was_built_serves_in_edition_1() {
        let mut rng = Rng::new(4);
        let mut plans = 0;
        for _ in 0..2000 {
            let table = texts::table(&mut rng, 5, 60, 0);
            let Ok(written) = file::parse(&answer(1, &texts::plain(&table))) else {
                continue;
            };
            let service = Service::new(Edition::One, &ticks::of_runs(&written.runs));
            let served = plan::serves(&service, table.g(), &written.partitions);
            assert_eq!(served, Ok(()), "{table:?}");
            plans += 1;
        }
        assert!(plans > 500, "{plans}");
    }

    #[test]
    fn lowest_number_first_across_both_calls() {
        let two = "partition 4 1/1\npartition 6 1/1\n";
        assert_eq!(line(""), "refused 3\n");
        assert_eq!(line("task 1 1 1 1\n"), "refused 3\n");
        assert_eq!(line(two), "refused 10\n");
        assert_eq!(line(&format!("{two}task 3 1 1 1\n")), "refused 7\n");
        let bad = "partition 4097 1/1\n";
        assert_eq!(line(&format!("{two}task 3 1 1 1\n{bad}")), "refused 6\n");
        let many = "partition 4 1/1\n".repeat(17);
        assert_eq!(line(&format!("{many}{bad}")), "refused 3\n");
        let wrong = "line 18: expected `granule`, `partition` or `task`\n";
        assert_eq!(line(&format!("{many}partitoin")), wrong);
        assert_eq!(line(&many[..32]), "refused 11\n");
    }

    #[test]
    fn a_granule_is_judged_behind_the_counts() {
        let fault = |text: &str| ["granule 1\n", "granule 17\n"].map(|g| line(&[g, text].concat()));
        let refused = |numbers: [u64; 2]| numbers.map(|number| format!("refused {number}\n"));
        assert_eq!(fault(""), refused([3, 3]));
        assert_eq!(fault(&"partition 4 1/1\n".repeat(17)), refused([3, 3]));
        let good = "partition 4 1/4\n";
        let tasks = "task 1 1 1 1\n".repeat(129);
        assert_eq!(fault(&[good, &tasks].concat()), refused([3, 3]));
        assert_eq!(fault("partition 0 1/1\n"), refused([6, 21]));
        assert_eq!(fault(&format!("{good}task 1 2 1 1\n")), refused([7, 21]));
        assert_eq!(
            fault(&format!("{good}partition 6 1/4\n")),
            refused([10, 21])
        );
        assert_eq!(
            fault(&format!("{good}partition 4 1/1\n")),
            refused([11, 21])
        );
        let wrong = "line 2: expected `granule` once, before the partitions\n";
        assert_eq!(fault("granule 0\n"), [wrong, wrong]);
    }

    /// "If q passes m the sum rule refuses it."
    #[test]
    fn a_granule_sizes_the_shares() {
        let planned = |granule: u64| {
            answer(
                1,
                format!("granule {granule}\npartition 6 1/3\n").as_bytes(),
            )
        };
        let without = answer(1, b"partition 6 1/3\n");
        assert_eq!([planned(1), planned(2)], [&without[..], &without]);
        // The file doesn't say the granule: only the runs differ.
        let [head, runs] = [&without[..22], &without[22..]];
        assert_eq!(runs, [0, 1, 0, 2, 0, 0, 0, 4]);
        assert_eq!(planned(3), [head, &[0, 1, 0, 3, 0, 0, 0, 3]].concat());
        assert_eq!(planned(5), [head, &[0, 1, 0, 5, 0, 0, 0, 1]].concat());
        // One run: the contents say so too.
        assert_eq!(
            planned(6)[14..],
            [&[0, 1], &head[16..], &[0, 1, 0, 6]].concat()
        );
        assert_eq!([planned(7), planned(16)], [b"refused 11\n"; 2]);
        assert_eq!([planned(0), planned(17)], [b"refused 21\n"; 2]);
    }
}
