//! "Running counts kept beside the plan": ask 2 of document 02. A count is never taken from the list
//! that is lent, nor from another count: each one walks the plan. "Ask 2 goes on counting owned
//! ticks" (ask 6): no call takes an edition.

use crate::answer::Answer;
use crate::editions::Edition;
use crate::plan;
use crate::records::{self, Question};
use crate::service::Service;

/// Fills the list: 3, 6, 8, 12. A longer one keeps its tail.
pub fn fill(plan: &[u16], parts: &[u16], list: &mut [u16]) -> Answer {
    match filled(plan, parts, list.len()) {
        Ok(counts) => {
            list[..counts.len()].copy_from_slice(&counts);
            Answer::good([counts.len() as u64, 0, 0, 0])
        }
        Err(refusal) => refusal,
    }
}

fn filled(plan: &[u16], parts: &[u16], lent: usize) -> Result<Vec<u16>, Answer> {
    let counts = list_of(plan, partitions(plan, parts)?);
    long_enough(lent, counts.len())?;
    Ok(counts)
}

/// How many partitions there are. Counts take no granule.
fn partitions(plan: &[u16], parts: &[u16]) -> Result<usize, Answer> {
    Ok(plan::by_the_rules(1, plan, parts)?.len())
}

/// One stretch: 3, 6, 8, 8 with place 0, 12, 20, 26.
pub fn held(plan: &[u16], parts: &[u16], list: &[u16], question: Question) -> Answer {
    match answered(plan, parts, list, &[question], 1) {
        Ok(counts) => Answer::good([counts[0], 0, 0, 0]),
        // Of one question no place is told.
        Err(refusal) => Answer {
            second: 0,
            ..refusal
        },
    }
}

/// Many stretches, three numbers each: as one, and a refused question's place from 1 is told too.
pub fn held_many(
    plan: &[u16],
    parts: &[u16],
    list: &[u16],
    questions: &[u16],
    answers: &mut [u16],
) -> Answer {
    let asked = records::questions(questions);
    let counts = asked.and_then(|asked| answered(plan, parts, list, &asked, answers.len()));
    match counts {
        Ok(counts) => {
            for (answer, &count) in answers.iter_mut().zip(&counts) {
                *answer = count as u16;
            }
            Answer::good([counts.len() as u64, 0, 0, 0])
        }
        Err(refusal) => refusal,
    }
}

fn answered(
    plan: &[u16],
    parts: &[u16],
    list: &[u16],
    questions: &[Question],
    answers: usize,
) -> Result<Vec<u64>, Answer> {
    let partitions = partitions(plan, parts)?;
    let named = |one: &Question| 1 <= one.partition && one.partition <= partitions;
    each_question(questions, 8, named)?;
    let counts = list_of(plan, partitions);
    long_enough(list.len(), counts.len())?;
    long_enough(answers, questions.len())?;
    agrees(list, &counts)?;
    let within = |one: &Question| one.start < plan.len() && one.length <= plan.len();
    each_question(questions, 26, within)?;
    // Edition 1's service is every owned tick.
    let owned = Service::new(Edition::One, plan);
    Ok(questions.iter().map(|one| walked(&owned, one)).collect())
}

/// Gives a tick to an owner, in plan and list: 3, 6, 8, 8 with place 0, 12, 20, 26.
pub fn change(
    plan: &mut [u16],
    parts: &[u16],
    list: &mut [u16],
    tick: usize,
    owner: usize,
) -> Answer {
    match changed(plan, parts, list, tick, owner) {
        Ok(partitions) => {
            plan[tick] = owner as u16;
            let counts = list_of(plan, partitions);
            list[..counts.len()].copy_from_slice(&counts);
            Answer::good([0; 4])
        }
        Err(refusal) => refusal,
    }
}

/// How many partitions there are, where nothing is in the way of the change.
fn changed(
    plan: &[u16],
    parts: &[u16],
    list: &[u16],
    tick: usize,
    owner: usize,
) -> Result<usize, Answer> {
    let partitions = partitions(plan, parts)?;
    if owner > partitions {
        return Err(Answer::refused_at(8, 0));
    }
    let counts = list_of(plan, partitions);
    long_enough(list.len(), counts.len())?;
    agrees(list, &counts)?;
    if tick >= plan.len() {
        return Err(Answer::refused(26));
    }
    Ok(partitions)
}

/// "for each partition the count of own ticks before each tick from 0 to F", partition by partition.
fn list_of(plan: &[u16], partitions: usize) -> Vec<u16> {
    let counts = |p: u16| (0..=plan.len()).map(move |tick| own(&plan[..tick], p));
    (1..=partitions as u16).flat_map(counts).collect()
}

/// How many of the ticks are p's. A frame's number of ticks fits into 16 bits, so nothing wraps;
/// not tested for, that lets the compiler count several ticks at a time.
fn own(ticks: &[u16], p: u16) -> u16 {
    let count = |own: u16, &owner: &u16| own.wrapping_add((owner == p).into());
    ticks.iter().fold(0, count)
}

/// The own ticks of the stretch, for a question by the rules.
fn walked(owned: &Service, question: &Question) -> u64 {
    let Question {
        partition,
        start,
        length,
    } = *question;
    owned.held(partition as u16, start as u32, length as u32)
}

/// 12.
fn long_enough(lent: usize, needed: usize) -> Result<(), Answer> {
    if lent < needed {
        return Err(Answer::refused(12));
    }
    Ok(())
}

/// "a list that disagrees with the plan is 20"; what is longer has no say.
fn agrees(list: &[u16], counts: &[u16]) -> Result<(), Answer> {
    if list[..counts.len()] != *counts {
        return Err(Answer::refused(20));
    }
    Ok(())
}

/// The number with the place from 1 of the lowest question that is not good.
fn each_question(
    questions: &[Question],
    number: u64,
    good: impl Fn(&Question) -> bool,
) -> Result<(), Answer> {
    match questions.iter().position(|one| !good(one)) {
        Some(index) => Err(Answer::new(number, [0, index as u64 + 1, 0, 0])),
        None => Ok(()),
    }
}

#[cfg(test)]
mod tests {
    use super::{change, fill, held, held_many};
    use crate::answer::Answer;
    use crate::inputs::plans;
    use crate::plan;
    use crate::records::Question;
    use crate::rng::Rng;

    /// Two partitions; the plan serves neither.
    const TABLE: [u16; 6] = [5, 1, 1, 4, 1, 1];
    const PLAN: [u16; 5] = [1, 2, 1, 0, 1];
    const LIST: [u16; 12] = [0, 1, 1, 2, 2, 3, 0, 0, 1, 1, 1, 1];

    fn filled(plan: &[u16], parts: &[u16]) -> Vec<u16> {
        let mut list = vec![77; parts.len() / 3 * (plan.len() + 1)];
        assert_eq!(fill(plan, parts, &mut list), good(list.len() as u64));
        list
    }

    fn good(first: u64) -> Answer {
        Answer::good([first, 0, 0, 0])
    }

    fn question(partition: usize, start: usize, length: usize) -> Question {
        Question {
            partition,
            start,
            length,
        }
    }

    fn asked(partition: usize, start: usize, length: usize) -> Answer {
        held(&PLAN, &TABLE, &LIST, question(partition, start, length))
    }

    #[test]
    fn filled_by_hand() {
        let mut list = [77; 14];
        assert_eq!(plan::check(1, 1, &PLAN, &TABLE).number, 9);
        assert_eq!(fill(&PLAN, &TABLE, &mut list), good(12));
        assert_eq!((&list[..12], &list[12..]), (&LIST[..], &[77, 77][..]));
        let mut short = [77; 11];
        assert_eq!(fill(&PLAN, &TABLE, &mut short), Answer::refused(12));
        assert_eq!(short, [77; 11]);
    }

    #[test]
    fn stretches_by_hand() {
        assert_eq!(asked(1, 0, 5), good(3));
        assert_eq!(asked(1, 1, 3), good(1));
        assert_eq!(asked(1, 4, 0), good(0));
        assert_eq!([asked(1, 4, 1), asked(1, 4, 2)], [good(1), good(2)]);
        assert_eq!([asked(1, 4, 5), asked(1, 3, 5)], [good(3), good(3)]);
        assert_eq!([asked(2, 2, 4), asked(2, 2, 5)], [good(0), good(1)]);
    }

    #[test]
    fn what_is_asked_lies_outside() {
        let nobody = Answer::refused_at(8, 0);
        for partition in [0, 3, (1 << 16) + 1, (1 << 32) + 1, usize::MAX] {
            assert_eq!(asked(partition, 0, 1), nobody);
            assert_eq!(asked(partition, 5, 6), nobody);
        }
        for outside in [6, (1 << 16) + 1, (1 << 32) + 1, usize::MAX] {
            assert_eq!(asked(1, outside, 1), Answer::refused(26));
            assert_eq!(asked(1, 1, outside), Answer::refused(26));
        }
        assert_eq!(asked(1, 5, 0), Answer::refused(26));
    }

    #[test]
    fn a_list_that_disagrees_comes_before_the_stretch() {
        let spoilt = |at: usize, length: usize| {
            let mut list = [&LIST[..], &[9]].concat();
            list[at] += 1;
            held(&PLAN, &TABLE, &list, question(2, 0, length)).number
        };
        for at in 0..12 {
            assert_eq!([spoilt(at, 5), spoilt(at, 6)], [20, 20]);
        }
        assert_eq!([spoilt(12, 5), spoilt(12, 6)], [0, 26]);
        let short = held(&PLAN, &TABLE, &[9; 11], question(2, 0, 6));
        assert_eq!(short, Answer::refused(12));
    }

    fn asked_many(list: &[u16], questions: &[u16], answers: usize) -> (Answer, Vec<u16>) {
        let mut lent = vec![77; answers];
        let answer = held_many(&PLAN, &TABLE, list, questions, &mut lent);
        (answer, lent)
    }

    #[test]
    fn many_by_hand() {
        let questions = [1, 4, 2, 2, 0, 5, 1, 0, 0];
        let three = (good(3), vec![2, 1, 0, 77]);
        assert_eq!(asked_many(&LIST, &questions, 4), three);
        let refused = |number| (Answer::refused(number), vec![77, 77]);
        assert_eq!(asked_many(&LIST, &questions, 2), refused(12));
        assert_eq!(asked_many(&LIST, &questions[1..], 2), refused(3));
        assert_eq!(asked_many(&LIST, &[], 0), (good(0), vec![]));
        assert_eq!(asked_many(&[0; 12], &[], 2), refused(20));
    }

    #[test]
    fn the_lowest_number_then_the_lowest_question() {
        let at = |number, place| (Answer::new(number, [0, place, 0, 0]), vec![77; 9]);
        let outside = [1, 0, 5, 1, 5, 0, 2, 0, 6];
        assert_eq!(asked_many(&LIST, &outside, 9), at(26, 2));
        let unknown = [&outside[..], &[1, 0, 1, 3, 0, 1, 0, 0, 1]].concat();
        assert_eq!(asked_many(&LIST, &unknown, 9), at(8, 5));
        assert_eq!(asked_many(&LIST[1..], &unknown, 9), at(8, 5));
        let spoilt = (Answer::refused(20), vec![77; 9]);
        assert_eq!(asked_many(&[0; 12], &outside, 9), spoilt);
    }

    /// The answer, and plan and list after it.
    fn changed(tick: usize, owner: usize) -> (Answer, Vec<u16>, Vec<u16>) {
        let mut plan = PLAN.to_vec();
        let mut list = [&LIST[..], &[77]].concat();
        let answer = change(&mut plan, &TABLE, &mut list, tick, owner);
        assert_eq!(list.pop(), Some(77));
        (answer, plan, list)
    }

    #[test]
    fn changes_by_hand() {
        let done = Answer::good([0; 4]);
        let idle = vec![0, 1, 1, 1, 1, 2, 0, 0, 1, 1, 1, 1];
        assert_eq!(changed(2, 0), (done, vec![1, 2, 0, 0, 1], idle));
        let owned = vec![0, 1, 1, 2, 2, 3, 0, 0, 1, 1, 2, 2];
        assert_eq!(changed(3, 2), (done, vec![1, 2, 1, 2, 1], owned));
        let other = vec![0, 1, 1, 2, 2, 2, 0, 0, 1, 1, 1, 2];
        assert_eq!(changed(4, 2), (done, vec![1, 2, 1, 0, 2], other));
        let same = |answer| (answer, PLAN.to_vec(), LIST.to_vec());
        assert_eq!([changed(1, 2), changed(3, 0)], [same(done), same(done)]);
        assert_eq!(changed(5, 0), same(Answer::refused(26)));
        assert_eq!(changed(5, 3), same(Answer::refused_at(8, 0)));
        assert_eq!(changed(0, 1 << 16), same(Answer::refused_at(8, 0)));
        assert_eq!(changed(1 << 32, 1), same(Answer::refused(26)));
    }

    #[test]
    fn a_change_touches_only_the_later_counts_of_its_two_owners() {
        let mut rng = Rng::new(8);
        for _ in 0..3000 {
            let [partitions, frame] = [rng.between(1, 3), rng.between(1, 7)];
            let parts = [1, 1, 2].repeat(partitions);
            let mut plan = plans::scattered(&mut rng, frame, partitions);
            let mut list = filled(&plan, &parts);
            let before = (plan.clone(), list.clone());
            let [tick, owner] = [rng.between(0, frame - 1), rng.between(0, partitions)];
            let answer = change(&mut plan, &parts, &mut list, tick, owner);
            assert_eq!(answer, Answer::good([0; 4]));
            let old = usize::from(before.0[tick]);
            let touched = |place: usize, other: &u16| {
                let [row, count] = [place / (frame + 1) + 1, place % (frame + 1)];
                let later = old != owner && [old, owner].contains(&row) && count > tick;
                assert_eq!(list[place] != *other, later);
            };
            let counts = before.1.iter().enumerate();
            counts.for_each(|(place, other)| touched(place, other));
            assert_eq!(list, filled(&plan, &parts));
        }
    }

    #[test]
    fn the_smallest_frame() {
        for (owner, list) in [(0, [0, 0]), (1, [0, 1])] {
            let mut plan = [owner];
            let mut lent = filled(&plan, &[1, 1, 1]);
            assert_eq!(lent, list);
            let whole = held(&plan, &[1, 1, 1], &lent, question(1, 0, 1));
            assert_eq!(whole, good(owner.into()));
            let other = usize::from(1 - owner);
            change(&mut plan, &[1, 1, 1], &mut lent, 0, other);
            assert_eq!((plan, lent), ([1 - owner], vec![0, 1 - owner]));
        }
    }

    #[test]
    fn sixteen_partitions_of_which_each_owns_its_tick() {
        let parts = [16, 1, 16].repeat(16);
        let plan: Vec<u16> = (1..=16).collect();
        let mut list = filled(&plan, &parts);
        assert_eq!(list.len(), 16 * 17);
        for (place, &count) in list.iter().enumerate() {
            assert_eq!(count, u16::from(place % 17 > place / 17));
        }
        assert_eq!(held(&plan, &parts, &list, question(16, 15, 16)), good(1));
        assert_eq!(held(&plan, &parts, &list, question(16, 0, 15)), good(0));
        let mut plan = plan;
        change(&mut plan, &parts, &mut list, 0, 16);
        assert_eq!(held(&plan, &parts, &list, question(16, 15, 2)), good(2));
        assert_eq!(held(&plan, &parts, &list, question(1, 0, 16)), good(0));
    }

    #[test]
    fn the_checkers_refusals_come_first() {
        let numbers = |plan: &[u16], parts: &[u16]| {
            let mut list = [0; 3];
            let mut ticks = plan.to_vec();
            [
                fill(plan, parts, &mut list),
                held(plan, parts, &list, question(9, 9, 9)),
                held_many(plan, parts, &list, &[9, 9, 9], &mut []),
                change(&mut ticks, parts, &mut list, 9, 9),
            ]
        };
        for plan in [vec![], vec![0; 4097]] {
            assert_eq!(numbers(&plan, &[9, 9, 9]), [Answer::refused(3); 4]);
        }
        assert_eq!(numbers(&[9, 9], &[1, 1]), [Answer::refused(3); 4]);
        let cycle = numbers(&[9, 9], &[2, 1, 1, 3, 1, 1]);
        assert_eq!(cycle, [Answer::refused_at(6, 2); 4]);
        let tick = numbers(&[1, 2], &[2, 1, 1]);
        assert_eq!(tick, [Answer::refused_at(8, 2); 4]);
    }
}
