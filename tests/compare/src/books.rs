//! The sorts of level books, for the coverage: accepted ones by shape and numbering, and where and how those
//! of refusal 3 lack a level. They are told from the bytes, whatever the book was made for.

use crate::coverage::{FLOOR, USUAL};
use crate::outcome::Outcome;
use cases::order::{Order, MOST_LEVELS};
use cases::Case;
use std::collections::BTreeSet;

const CHAIN: &str = "a chain of three levels or more";
const SIDE_BY_SIDE: &str = "levels side by side between two";
const SUBSETS: &str = "the subsets of three things or more";
const PRODUCT: &str = "another product of chains";
const OTHER: &str = "another lattice";
const SIXTEEN: &str = "16 levels";

const NUMBERINGS: [&str; 3] = ["from low to high", "from high to low", "numbered otherwise"];

/// Accepted books of a shape, under each numbering.
const SHAPES: [(&str, u64); 6] = [
    (CHAIN, USUAL / 100),
    (SIDE_BY_SIDE, USUAL / 100),
    (SUBSETS, USUAL / 100),
    (PRODUCT, USUAL / 40),
    (OTHER, USUAL / 40),
    (SIXTEEN, USUAL / 100),
];

const FIRST: &str = "refused at the first pair";
const BETWEEN: &str = "refused at a pair between";
const LAST: &str = "refused at the last pair";

const UPPER: &str = "which lacks its upper level";
const LOWER: &str = "which lacks its lower level";
const BOTH: &str = "which lacks both levels";

/// Books of one sort that refusal 3 is given for are few.
const REFUSED_FLOOR: u64 = 90;

/// Books of refusal 3. The last pair is one of several: where it alone lacks a level, it has the other one.
const REFUSED: [(&str, &str); 8] = [
    (FIRST, UPPER),
    (FIRST, LOWER),
    (FIRST, BOTH),
    (BETWEEN, UPPER),
    (BETWEEN, LOWER),
    (BETWEEN, BOTH),
    (LAST, UPPER),
    (LAST, LOWER),
];

const ONE_LEVEL: (&str, u64) = ("one level", FLOOR);
const SIXTEEN_REFUSED: (&str, u64) = ("refused, 16 levels", REFUSED_FLOOR);

/// Every sort, with its floor.
pub fn floors() -> Vec<(String, u64)> {
    let shapes = SHAPES.iter().flat_map(|&(shape, floor)| {
        let of_shape = |numbering| (format!("{shape}, {numbering}"), floor);
        NUMBERINGS.map(of_shape)
    });
    let refused = REFUSED.map(|(pair, lacks)| (format!("{pair}, {lacks}"), REFUSED_FLOOR));
    let single = [ONE_LEVEL, SIXTEEN_REFUSED].map(|(sort, floor)| (sort.to_string(), floor));
    shapes.chain(refused).chain(single).collect()
}

/// The sorts that the book of a case is of; none of a book that refusals 1 and 2 are given for.
pub fn reached(case: &Case, outcome: &Outcome) -> Vec<String> {
    let order = Order::read(&case.book);
    match outcome.check[0] {
        1 | 2 => vec![],
        3 => refused(&order, outcome.check[1] as usize),
        _ => accepted(&order),
    }
}

fn accepted(order: &Order) -> Vec<String> {
    if order.count() == 1 {
        return vec![ONE_LEVEL.0.to_string()];
    }
    let numbering = numbering(order);
    let sixteen = (order.count() == MOST_LEVELS).then_some(SIXTEEN);
    let shapes = shape(order).into_iter().chain(sixteen);
    shapes
        .map(|shape| format!("{shape}, {numbering}"))
        .collect()
}

fn pairs(order: &Order) -> impl Iterator<Item = (usize, usize)> {
    let count = order.count();
    (0..count).flat_map(move |i| (i + 1..count).map(move |j| (i, j)))
}

fn numbering(order: &Order) -> &'static str {
    let never_falls = !pairs(order).any(|(i, j)| order.at_most(j, i));
    let never_rises = !pairs(order).any(|(i, j)| order.at_most(i, j));
    match (never_falls, never_rises) {
        (true, _) => NUMBERINGS[0],
        (_, true) => NUMBERINGS[1],
        _ => NUMBERINGS[2],
    }
}

/// The shape of a lattice of two levels or more; none of two levels, which have but one.
fn shape(order: &Order) -> Option<&'static str> {
    let comparable = pairs(order).filter(|&(i, j)| order.at_most(i, j) || order.at_most(j, i));
    // Bottom and top with each other and with each level between.
    let is_flat = comparable.count() == 2 * order.count() - 3;
    match product_of_chains(order).as_deref() {
        _ if order.count() == 2 => None,
        Some([_]) => Some(CHAIN),
        Some(lengths) if lengths.len() >= 3 && lengths.iter().all(|&n| n == 1) => Some(SUBSETS),
        Some(_) => Some(PRODUCT),
        None if is_flat => Some(SIDE_BY_SIDE),
        None => Some(OTHER),
    }
}

/// The numbers of levels above the least of the chains that a lattice is the product of, if it is one. Each
/// level is the join of those at or below it that have exactly one level just below; in a product of chains,
/// and in no other lattice of as many levels, these are side by side chains.
fn product_of_chains(order: &Order) -> Option<Vec<usize>> {
    let levels = || 0..order.count();
    let below = |i: usize, j: usize| i != j && order.at_most(i, j);
    let just_below =
        |&i: &usize, j: usize| below(i, j) && !levels().any(|k| below(i, k) && below(k, j));
    let one_below = |&j: &usize| levels().filter(|i| just_below(i, j)).count() == 1;
    let steps: Vec<usize> = levels().filter(one_below).collect();
    let chain = |&one: &usize| -> Vec<usize> {
        let of_it = |other: &usize| order.at_most(one, *other) || order.at_most(*other, one);
        steps.iter().copied().filter(of_it).collect()
    };
    let chains: BTreeSet<Vec<usize>> = steps.iter().map(chain).collect();
    let lengths: Vec<usize> = chains.iter().map(Vec::len).collect();
    let apart = lengths.iter().sum::<usize>() == steps.len();
    let product: usize = lengths.iter().map(|length| length + 1).product();
    (apart && product == order.count()).then_some(lengths)
}

fn refused(order: &Order, place: usize) -> Vec<String> {
    let (i, j) = (place / 16, place % 16);
    let converse = order.converse();
    let lacks = match (order.least_upper(i, j), converse.least_upper(i, j)) {
        (None, Some(_)) => UPPER,
        (Some(_), None) => LOWER,
        _ => BOTH,
    };
    let pair = match (i, j) {
        (0, 1) => FIRST,
        _ if (i + 2, j + 1) == (order.count(), order.count()) => LAST,
        _ => BETWEEN,
    };
    let sixteen = (order.count() == MOST_LEVELS).then_some(SIXTEEN_REFUSED.0.to_string());
    let refused = [format!("{pair}, {lacks}")];
    refused.into_iter().chain(sixteen).collect()
}

#[cfg(test)]
mod tests {
    use super::*;
    use cases::order::{chain, pentagon, powerset, product, side_by_side};

    #[test]
    fn the_shapes_of_single_lattices() {
        let chains = [2, 3, 16].map(|count| shape(&chain(count)));
        assert_eq!(chains, [None, Some(CHAIN), Some(CHAIN)]);
        assert_eq!(shape(&powerset(2)), Some(PRODUCT));
        assert_eq!(shape(&powerset(4)), Some(SUBSETS));
        assert_eq!(shape(&product(&chain(2), &chain(8))), Some(PRODUCT));
        assert_eq!(shape(&product(&chain(2), &powerset(2))), Some(SUBSETS));
        assert_eq!(shape(&side_by_side(3)), Some(SIDE_BY_SIDE));
        assert_eq!(shape(&pentagon()), Some(OTHER));
    }

    #[test]
    fn the_numbering_of_single_lattices() {
        let turned = powerset(3).converse();
        let other = chain(3).renumbered(&[1, 0, 2]);
        let numberings = [&powerset(3), &turned, &other].map(numbering);
        assert_eq!(numberings, NUMBERINGS);
    }

    #[test]
    fn the_sorts_of_refused_books() {
        let order = |rows: &[u16]| Order {
            rows: rows.to_vec(),
        };
        let sort = |place, lacks| [format!("{place}, {lacks}")];
        assert_eq!(refused(&order(&[1, 2]), 1), sort(FIRST, BOTH));
        assert_eq!(refused(&order(&[15, 14, 4, 8]), 35), sort(LAST, UPPER));
        assert_eq!(refused(&order(&[1, 3, 7, 11]), 35), sort(LAST, LOWER));
        assert_eq!(refused(&order(&[1, 11, 5, 8]), 3), sort(BETWEEN, UPPER));
    }
}
