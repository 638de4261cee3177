//! A plan as ticks and as runs.

use crate::records::Run;

/// Each tick's owner.
pub fn of_runs(runs: &[Run]) -> Vec<u16> {
    runs.iter()
        .flat_map(|run| vec![run.owner; run.length as usize])
        .collect()
}

/// "Run: owner, length ≥ 1; neighbours differ", as the numbers of a table.
pub fn to_runs(plan: &[u16]) -> Vec<u16> {
    let mut runs: Vec<u16> = Vec::new();
    for &owner in plan {
        let end = runs.len();
        if end > 0 && runs[end - 2] == owner {
            runs[end - 1] += 1;
        } else {
            runs.extend([owner, 1]);
        }
    }
    runs
}

#[cfg(test)]
mod tests {
    use super::{of_runs, to_runs};
    use crate::inputs::plans;
    use crate::records;
    use crate::rng::Rng;

    #[test]
    fn there_and_back() {
        let mut rng = Rng::new(5);
        for _ in 0..2000 {
            let frame = rng.between(1, 12);
            let plan = plans::scattered(&mut rng, frame, 2);
            let runs = records::runs(&to_runs(&plan)).unwrap_or_default();
            assert_eq!(records::run_rules(&runs, 2, frame as u64), Ok(()));
            assert_eq!(of_runs(&runs), plan);
        }
    }

    #[test]
    fn the_ends_are_not_joined() {
        assert_eq!(to_runs(&[1, 0, 0, 1]), [1, 1, 0, 2, 1, 1]);
        assert_eq!(to_runs(&[3; 9]), [3, 9]);
    }
}
