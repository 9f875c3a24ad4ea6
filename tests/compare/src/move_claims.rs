//! What 02 (f) says about check and run: a script without a while makes at most as many moves as check says, in
//! any run; steps are moves and instant changes.

use crate::engine::{moves_by_steps, Engine};
use crate::outcome::{outcome, Outcome};
use crate::sweep::case_seed;
use cases::Rng;

/// The claims, for what an engine made of a case. Its moves are those that it counts itself, if it does; the steps
/// less the instants must be as many.
pub fn hold(outcome: &Outcome) -> Result<(), String> {
    let (counted, by_steps) = (outcome.moves, moves_by_steps(&outcome.run));
    if outcome.refusal() == 0 && counted != by_steps {
        return Err(format!(
            "{counted} moves are counted, steps less instants are {by_steps}"
        ));
    }
    let refused = !outcome.accepted();
    match (outcome.check[4], outcome.check[5]) {
        (0, 0) => Ok(()),
        (1, figure) if !refused && counted <= figure => Ok(()),
        (bounded, figure) => Err(format!(
            "bounded is {bounded}, at most {figure} moves, refusal {}, and {counted} moves are made",
            outcome.check[0]
        )),
    }
}

/// The number of the first seeded case, from 1, on which the claims fail of an engine; none if they hold of all.
pub fn first_broken(engine: &dyn Engine, count: u64, seed: u64) -> Option<u64> {
    let broken = |number: &u64| {
        let case = cases::case(&mut Rng::new(case_seed(seed, *number)));
        outcome(engine, &case).is_ok_and(|seen| hold(&seen).is_err())
    };
    (0..count).find(broken).map(|number| number + 1)
}

#[cfg(test)]
mod tests {
    use super::*;
    use crate::engine::Reference;
    use reference::{Fault, Rules};

    fn made(check: [u32; 6], steps: u32, instants: u32, moves: u32) -> Outcome {
        Outcome {
            check: check.to_vec(),
            flows: crate::outcome::Flows {
                out: vec![0; 2],
                sets: vec![0; 16],
            },
            run: vec![check[0], 0, 0, steps, instants, 0],
            moves,
            values: vec![],
            log: vec![],
        }
    }

    /// 02 (f) leaves room: the claim holds of some smaller figures as well.
    #[test]
    fn smaller_figures_hold_too() {
        for fault in [
            Fault::FigureLessParallels,
            Fault::ParallelsByDepth,
            Fault::LargerBranchCounts,
        ] {
            let engine = Reference(Rules { fault: Some(fault) });
            assert_eq!(first_broken(&engine, 3000, 1), None, "{}", fault.says());
        }
    }

    #[test]
    fn claims_of_single_outcomes() {
        let (figure, none, refused) = ([0, 0, 0, 0, 1, 3], [0; 6], [11, 4, 0, 0, 0, 0]);
        assert_eq!(hold(&made(figure, 5, 2, 3)), Ok(()));
        assert_eq!(hold(&made(none, 99, 0, 99)), Ok(()));
        assert_eq!(hold(&made(refused, 0, 0, 0)), Ok(()));
        // More moves than the figure says; a wrong count; a figure without bounds, and of a refused script.
        assert!(hold(&made(figure, 6, 2, 4)).is_err());
        assert!(hold(&made(figure, 5, 2, 2)).is_err());
        assert!(hold(&made([0, 0, 0, 0, 0, 3], 5, 2, 3)).is_err());
        assert!(hold(&made([11, 0, 0, 0, 1, 0], 0, 0, 0)).is_err());
    }
}
