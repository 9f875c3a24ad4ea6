//! Figure 5 by brute force against the library's check: accepted exactly when a pair can be derived,
//! and W and T are the tightest.

use crate::book::at_or_below;
use crate::outcome::Outcome;
use cases::Case;
use reference::Rules;

/// The largest book and script that are asked, since brute force takes its time.
const MOST_LEVELS: usize = 6;
const MOST_NODES: usize = 30;

/// Compares check's answer with all derivable pairs; `None` if the case is too large.
pub fn compare(case: &Case, outcome: &Outcome) -> Option<Result<(), String>> {
    let nodes = cases::file::File::read(&case.script).map_or(0, |file| file.nodes.len());
    if case
        .book
        .first()
        .is_some_and(|&count| usize::from(count) > MOST_LEVELS)
        || nodes > MOST_NODES
    {
        return None;
    }
    let pairs = reference::pairs(Rules::default(), &case.book, &case.script);
    Some(match (outcome.check[0], pairs) {
        (1..=10, None) => Ok(()),
        (11, Some(pairs)) if pairs.is_empty() => Ok(()),
        (0, Some(pairs)) => is_tightest(case, (outcome.check[2], outcome.check[3]), &pairs),
        (number, pairs) => Err(format!("check gives {number}, Figure 5 derives {pairs:?}")),
    })
}

/// Any derivable pair has its write level at or below W and its test level at or above T.
fn is_tightest(case: &Case, (write, test): (u32, u32), pairs: &[(u32, u32)]) -> Result<(), String> {
    if !pairs.contains(&(write, test)) {
        return Err(format!("Figure 5 does not derive ({write}, {test})"));
    }
    let at_most = |lower, upper| at_or_below(&case.book, lower, upper);
    let looser = |&&(w, t): &&(u32, u32)| at_most(w, write) && at_most(test, t);
    match pairs.iter().find(|pair| !looser(pair)) {
        Some(pair) => Err(format!(
            "Figure 5 derives {pair:?}, which ({write}, {test}) does not cover"
        )),
        None => Ok(()),
    }
}

#[cfg(test)]
mod tests {
    use super::*;
    use crate::engine::Raw;
    use crate::outcome::outcome;
    use cases::Rng;

    /// Of small accepted cases, every other pair than the library's is refused here.
    #[test]
    fn no_other_pair_is_the_tightest() {
        let mut tried = 0;
        for seed in 0..300 {
            let case = cases::case(&mut Rng::new(seed));
            let right = outcome(&Raw, &case).unwrap();
            if !right.accepted() || compare(&case, &right).is_none() {
                continue;
            }
            let levels = u32::from(case.book[0]);
            for (write, test) in (0..levels).flat_map(|w| (0..levels).map(move |t| (w, t))) {
                let mut other = right.clone();
                other.check[2..4].copy_from_slice(&[write, test]);
                assert_eq!(
                    matches!(compare(&case, &other), Some(Ok(()))),
                    other == right
                );
                tried += 1;
            }
        }
        assert!(tried > 100);
    }
}
