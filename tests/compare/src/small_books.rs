//! Every level book of few levels that passes 1 to 3.

use crate::engine::Reference;
use crate::flow_claims::check;
use cases::file::File;
use cases::order::Order;
use reference::Rules;
use std::collections::BTreeSet;

/// The most levels. Among the books of five are the smallest lattices that are not distributive.
pub const FEW: usize = 5;

/// All of them, and which only add pairs to others.
pub struct Books {
    pub orders: Vec<Order>,
    pub bytes: Vec<Vec<u8>>,
    /// (smaller, larger), by their places.
    pub larger: Vec<(usize, usize)>,
}

impl Books {
    pub fn all() -> Books {
        let orders: Vec<Order> = (1..=FEW).flat_map(passing).collect();
        let places = 0..orders.len();
        let pairs = places.flat_map(|one| (0..orders.len()).map(move |other| (one, other)));
        let adds = |&(one, other): &(usize, usize)| {
            one != other && only_adds(&orders[one], &orders[other])
        };
        Books {
            bytes: orders.iter().map(Order::book).collect(),
            larger: pairs.filter(adds).collect(),
            orders,
        }
    }

    pub fn has_levels(&self, book: usize, levels: usize) -> bool {
        self.orders[book].count() >= levels
    }

    /// The places of the books that have so many levels.
    pub fn with_levels(&self, levels: usize) -> impl Iterator<Item = usize> + '_ {
        let books = 0..self.orders.len();
        books.filter(move |&book| self.has_levels(book, levels))
    }
}

/// Whether the larger book has every pair of the smaller one.
fn only_adds(smaller: &Order, larger: &Order) -> bool {
    let mut rows = smaller.rows.iter().zip(&larger.rows);
    smaller.count() <= larger.count() && rows.all(|(few, more)| few & !more == 0)
}

/// Every book of a number of levels that passes 1 to 3: of all relations in which no level is at or below one
/// of a smaller number, those that pass, under every numbering.
fn passing(count: usize) -> Vec<Order> {
    let pairs = (0..count).flat_map(|j| (0..j).map(move |i| (i, j)));
    let pairs: Vec<(usize, usize)> = pairs.collect();
    let relation = |chosen: u32| {
        let has = |i, j| pairs.iter().position(|&pair| pair == (i, j));
        let at_most = |i, j| i == j || has(i, j).is_some_and(|place| chosen >> place & 1 == 1);
        Order::new(count, at_most)
    };
    let risen = (0..1 << pairs.len()).map(relation).filter(passes);
    let numberings = numberings(count);
    let numbered = risen.flat_map(|order| {
        let rows = |numbering: &Vec<usize>| order.renumbered(numbering).rows;
        numberings.iter().map(rows).collect::<Vec<_>>()
    });
    let distinct: BTreeSet<Vec<u16>> = numbered.collect();
    distinct.into_iter().map(|rows| Order { rows }).collect()
}

/// Whether the script nil is accepted under the book.
fn passes(order: &Order) -> bool {
    let nil = File {
        nodes: vec![Default::default()],
        ..File::default()
    };
    let right = Reference(Rules::default());
    check(&right, &order.book(), &nil.bytes())[0] == 0
}

/// Every arrangement of the numbers below `count`.
fn numberings(count: usize) -> Vec<Vec<usize>> {
    let mut all = vec![vec![]];
    for number in 0..count {
        let with = |shorter: &Vec<usize>| {
            let at = |place| {
                let mut longer = shorter.clone();
                longer.insert(place, number);
                longer
            };
            (0..=number).map(at).collect::<Vec<_>>()
        };
        all = all.iter().flat_map(with).collect();
    }
    all
}

#[cfg(test)]
mod tests {
    use super::*;

    /// The numbers of lattices on one to five numbered levels are known: 1, 2, 6, 36, 380.
    #[test]
    fn every_book_of_few_levels_is_there() {
        let counts = [1, 2, 3, 4, 5].map(|count| passing(count).len());
        assert_eq!(counts, [1, 2, 6, 36, 380]);
    }

    #[test]
    fn larger_books_have_every_pair_of_smaller_ones() {
        let chain = |rows: &[u16]| Order {
            rows: rows.to_vec(),
        };
        let (one, two, three) = (chain(&[1]), chain(&[3, 2]), chain(&[7, 6, 4]));
        assert!(only_adds(&one, &two) && only_adds(&two, &three));
        assert!(!only_adds(&two, &one) && !only_adds(&chain(&[1, 3]), &three));
        let diamond = chain(&[15, 10, 12, 8]);
        assert!(only_adds(&diamond, &chain(&[15, 14, 12, 8])));
        assert!(only_adds(&diamond, &chain(&[15, 10, 14, 8])));
        assert!(!only_adds(&chain(&[15, 14, 12, 8]), &diamond));
    }
}
