//! The curve of least service: least(0) to least(n) of one partition in one call.

use crate::answer::Answer;
use crate::editions::Edition;
use crate::service::Service;

/// Writes the curve into the list: 2, 12. A longer one keeps its tail.
pub fn curve(edition: u64, plan: &[u16], p: u16, n: u32, list: &mut [u32]) -> Answer {
    let needed = n as usize + 1;
    match Edition::of(edition) {
        Err(refusal) => refusal,
        Ok(_) if list.len() < needed => Answer::refused(12),
        Ok(edition) => {
            let least = Service::new(edition, plan).least_up_to(p, n as usize);
            for (number, least) in list.iter_mut().zip(least) {
                *number = least as u32;
            }
            Answer::good([needed as u64, 0, 0, 0])
        }
    }
}

#[cfg(test)]
mod tests {
    use super::curve;
    use crate::answer::Answer;
    use crate::inputs::plans;
    use crate::plan::least;
    use crate::rng::Rng;

    /// Edition 1's curve.
    fn of(plan: &[u16], p: u16, n: u32) -> Vec<u32> {
        exact(1, plan, p, n)
    }

    /// The curve in a list that is exact.
    fn exact(edition: u64, plan: &[u16], p: u16, n: u32) -> Vec<u32> {
        let mut list = vec![77; n as usize + 1];
        let answer = curve(edition, plan, p, n, &mut list);
        assert_eq!(answer, Answer::good([u64::from(n) + 1, 0, 0, 0]));
        list
    }

    #[test]
    fn p1_by_hand() {
        let p1 = [1, 2, 2, 2, 1, 3, 0, 0];
        let second = [0, 0, 0, 0, 0, 0, 1, 2, 3, 3, 3, 3, 3, 3, 4, 5, 6];
        assert_eq!(of(&p1, 2, 16), second);
        assert_eq!(of(&p1, 1, 9), [0, 0, 0, 0, 1, 1, 1, 1, 2, 2]);
        assert_eq!(of(&p1, 0, 9), [0, 0, 0, 0, 0, 0, 0, 1, 2, 2]);
        assert_eq!(of(&p1, 4, 3), [0; 4]);
    }

    /// Partition 2 has two service ticks in a frame, the others have none.
    #[test]
    fn p1_by_hand_in_edition_2() {
        let p1 = |p, n| exact(2, &[1, 2, 2, 2, 1, 3, 0, 0], p, n);
        let second = [0, 0, 0, 0, 0, 0, 0, 1, 2, 2, 2, 2, 2, 2, 2, 3, 4];
        assert_eq!(p1(2, 16), second);
        assert_eq!(p1(0, 11), [0, 0, 0, 1, 2, 3, 4, 5, 6, 6, 6, 7]);
        for p in [1, 3, 4] {
            assert_eq!(p1(p, 16), [0; 17]);
        }
    }

    #[test]
    fn ends_that_join() {
        assert_eq!(of(&[1, 0, 0, 1], 1, 6), [0, 0, 0, 1, 2, 2, 2]);
        assert_eq!(of(&[0, 1, 1, 0], 1, 6), [0, 0, 0, 1, 2, 2, 2]);
        assert_eq!(of(&[1, 0, 1], 1, 6), [0, 0, 1, 2, 2, 3, 4]);
        assert_eq!(of(&[0, 1, 0], 1, 6), [0, 0, 0, 1, 1, 1, 2]);
    }

    #[test]
    fn all_own_or_none() {
        assert_eq!(of(&[65535; 3], 65535, 5), [0, 1, 2, 3, 4, 5]);
        assert_eq!(of(&[65535; 3], 255, 5), [0; 6]);
        assert_eq!(of(&[], 0, 3), [0, 1, 2, 3]);
        assert_eq!(of(&[], 1, 3), [0; 4]);
        assert_eq!(of(&[1], 1, 70_000)[70_000], 70_000);
    }

    #[test]
    fn short_exact_and_longer() {
        let lent = |n, numbers| {
            let mut list = vec![77; numbers];
            (curve(1, &[1, 0], 1, n, &mut list), list)
        };
        let good = |numbers| Answer::good([numbers, 0, 0, 0]);
        assert_eq!(lent(0, 2), (good(1), vec![0, 77]));
        assert_eq!(lent(2, 3), (good(3), vec![0, 0, 1]));
        assert_eq!(lent(2, 5), (good(3), vec![0, 0, 1, 77, 77]));
        let refused = |numbers| (Answer::refused(12), vec![77; numbers]);
        for (n, numbers) in [(0, 0), (2, 2), (2, 0), (65_535, 9), (u32::MAX, 9)] {
            assert_eq!(lent(n, numbers), refused(numbers));
        }
    }

    #[test]
    fn an_edition_is_refused_before_the_list() {
        for edition in [0, 3, 65_537, (1 << 32) + 2, u64::MAX] {
            for numbers in [0, 2, 3, 9] {
                let mut list = vec![77; numbers];
                let answer = curve(edition, &[1, 0], 1, 2, &mut list);
                assert_eq!((answer, list), (Answer::refused(2), vec![77; numbers]));
            }
        }
    }

    #[test]
    fn each_number_is_least() {
        let mut rng = Rng::new(11);
        for _ in 0..2000 {
            let ticks = rng.between(0, 9);
            let plan = plans::in_runs(&mut rng, ticks, 2);
            let p = rng.pick(&[0, 1, 3]);
            let edition = rng.pick(&[1, 2]);
            for (t, number) in (0..).zip(exact(edition, &plan, p, 30)) {
                let counted = least(edition, &plan, p, t).first;
                assert_eq!(u64::from(number), counted, "{edition} {plan:?} {p} {t}");
            }
        }
    }
}
