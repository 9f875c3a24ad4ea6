//! What 02 (e) says about flows and check: refusal 11 is given exactly when some listed pair is absent
//! from the order of a book; a book that only adds pairs lets through what a smaller one did; a file is
//! refused as under a book of all levels.

use crate::engine::{Engine, CHECK_WORDS};
use crate::outcome::{Flows, Outcome};
use cases::order::{chain, powerset, Order, MOST_LEVELS};
use cases::Case;

/// Number and place that check gives.
pub fn check(engine: &dyn Engine, book: &[u8], script: &[u8]) -> [u32; 2] {
    let mut out = [0; CHECK_WORDS];
    engine.check(book, script, &mut out);
    [out[0], out[1]]
}

/// How many listed pairs are absent from the order of a book. A level that the book lacks is in none of its
/// pairs.
pub fn absent(order: &Order, flows: &Flows) -> usize {
    let has = |i: usize, j: usize| i.max(j) < order.count() && order.at_most(i, j);
    flows.pairs().filter(|&(i, j)| !has(i, j)).count()
}

/// 'Refusal 11 is given exactly when some listed pair is absent from its order.' Of check's numbers only
/// 0 and 11 say that the book passes and has the script's levels.
pub fn given_for_absent_pairs(number: u32, order: &Order, flows: &Flows) -> Result<(), String> {
    let absent = absent(order, flows);
    match (number, absent) {
        (0, 0) | (11, 1..) => Ok(()),
        _ => Err(format!(
            "check gives {number}, {absent} of the listed pairs are absent from the book"
        )),
    }
}

/// All claims, for a case that gave an outcome.
pub fn hold(engine: &dyn Engine, case: &Case, outcome: &Outcome) -> Result<(), String> {
    let number = outcome.check[0];
    if matches!(number, 0 | 11) {
        let order = Order::read(&case.book);
        given_for_absent_pairs(number, &order, &outcome.flows)?;
        let larger = check(engine, &risen(&order).book(), &case.script)[0];
        lets_through_as_much(number, larger)?;
    }
    refused_as_under_all_levels(engine, &case.script, &outcome.flows)
}

/// 'A passing book that only adds pairs therefore never refuses for flow what a smaller one let through':
/// check's numbers under both.
pub fn lets_through_as_much(smaller: u32, larger: u32) -> Result<(), String> {
    match (smaller, larger) {
        (0, 0) | (11, 0 | 11) => Ok(()),
        _ => Err(format!(
            "check gives {smaller}, and {larger} under a book that only adds pairs"
        )),
    }
}

/// A book that only adds pairs: all levels one above the other, those with fewer levels below them first.
fn risen(order: &Order) -> Order {
    let below = |i: usize| (0..order.count()).filter(|&k| order.at_most(k, i)).count();
    let rank = |i: usize| (below(i), i);
    Order::new(order.count(), |i, j| rank(i) <= rank(j))
}

/// 'A file that passes 4 to 10 (no book here: 6 takes levels to 15)': one that check doesn't refuse by
/// these under a book of all levels, whatever its order is.
fn refused_as_under_all_levels(
    engine: &dyn Engine,
    script: &[u8],
    flows: &Flows,
) -> Result<(), String> {
    for order in [chain(MOST_LEVELS), powerset(MOST_LEVELS.ilog2() as usize)] {
        let under = check(engine, &order.book(), script);
        let refusal = match under[0] {
            4..=10 => under,
            _ => [0, 0],
        };
        if flows.out != refusal {
            return Err(format!(
                "flows gives {:?}, check under all levels {under:?}",
                flows.out
            ));
        }
    }
    match flows.refusal() != 0 && flows.pairs().next().is_some() {
        true => Err("a refusal left sets behind".into()),
        false => Ok(()),
    }
}

#[cfg(test)]
mod tests {
    use super::*;
    use crate::engine::Reference;
    use crate::outcome::outcome;
    use cases::order::{pentagon, side_by_side};
    use cases::Rng;
    use reference::{Fault, Rules};

    #[test]
    fn a_risen_book_only_adds_pairs() {
        for order in [
            chain(3),
            powerset(4),
            side_by_side(5),
            pentagon().converse(),
        ] {
            let risen = risen(&order);
            let pairs = (0..order.count()).flat_map(|i| (0..order.count()).map(move |j| (i, j)));
            for (i, j) in pairs {
                assert!(risen.at_most(i, j) || !order.at_most(i, j));
                assert!(risen.at_most(i, j) || risen.at_most(j, i));
            }
        }
    }

    /// Whether a claim fails under a fault, on some of many cases.
    fn is_found(fault: Fault) -> bool {
        let wrong = Reference(Rules { fault: Some(fault) });
        let fails = |seed| {
            let case = cases::case(&mut Rng::new(seed));
            let seen = outcome(&wrong, &case).unwrap();
            hold(&wrong, &case, &seen).is_err()
        };
        (0..6000).any(fails)
    }

    #[test]
    fn wrong_rules_break_the_claims() {
        for fault in [
            Fault::AssignedFlowUnlisted,
            Fault::WhileBodyUnlisted,
            Fault::LetIsWrite,
            Fault::WhileAgainstConditionOnly,
            Fault::LevelPastLastPasses,
            Fault::LastLevelRefused,
            Fault::FlowsKeptByRefusal,
        ] {
            assert!(is_found(fault), "{}", fault.says());
        }
    }
}
