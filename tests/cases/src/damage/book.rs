//! Refusals 1 to 3: wrong level books.

use super::{Draft, Sort};
use crate::order::{chain, numbered, powerset, side_by_side, stacked, Order, MOST_LEVELS};
use crate::rng::Rng;

pub const SORTS: &[Sort] = &[
    Sort::new(1, "empty book", |draft, _| put(draft, vec![])),
    Sort::new(1, "no level", |draft, rng| {
        let rest = rng.below(2) * 2;
        put(draft, vec![0; 1 + rest])
    }),
    Sort::new(1, "17 levels", |draft, _| put(draft, chain_book(17))),
    Sort::new(1, "many levels", |draft, rng| {
        put(draft, chain_book(rng.between(18, 255)))
    }),
    Sort::new(1, "book too short", |draft, rng| {
        draft
            .book
            .truncate(rng.between(1, draft.book.len().saturating_sub(1)));
        Some(())
    }),
    Sort::new(1, "book too long", |draft, rng| {
        let more = rng.between(1, 3);
        draft.book.extend((0..more).map(|_| rng.next_u64() as u8));
        Some(())
    }),
    Sort::new(2, "own bit missing", |draft, rng| {
        damage_rows(draft, rng, |order, rng| {
            let level = rng.below(order.count());
            order.rows[level] &= !(1 << level);
            Some(())
        })
    }),
    Sort::new(2, "bit at n or above", |draft, rng| {
        damage_rows(draft, rng, |order, rng| {
            let free = MOST_LEVELS.checked_sub(order.count() + 1)?;
            let level = rng.below(order.count());
            order.rows[level] |= 1 << (order.count() + rng.below(free + 1));
            Some(())
        })
    }),
    Sort::new(2, "holds both ways", |draft, rng| {
        damage_rows(draft, rng, both_ways)
    }),
    Sort::new(2, "not transitive", |draft, rng| {
        damage_rows(draft, rng, gap)
    }),
    Sort::new(2, "any bits", |draft, rng| {
        damage_rows(draft, rng, |order, rng| {
            for row in &mut order.rows {
                *row ^= (rng.next_u64() & rng.next_u64() & rng.next_u64()) as u16;
            }
            Some(())
        })
    }),
    Sort::new(3, "no common upper level", |draft, rng| {
        let order = without_top(rng);
        put_order(draft, rng, &order)
    }),
    Sort::new(3, "no common lower level", |draft, rng| {
        let order = without_top(rng).converse();
        put_order(draft, rng, &order)
    }),
    Sort::new(
        3,
        "no least upper, no greatest lower level",
        |draft, rng| put_order(draft, rng, &crossed()),
    ),
    Sort::new(3, "any partial order", |draft, rng| {
        let order = partial_order(rng);
        match order.is_lattice() {
            true => None,
            false => put_order(draft, rng, &order),
        }
    }),
    Sort::new(3, "two parts without a common level", |draft, rng| {
        let order = two_parts(rng);
        put_order(draft, rng, &order)
    }),
    Sort::new(3, "the first pair lacks a level", |draft, rng| {
        let order = match rng.below(3) {
            0 => without_top(rng),
            1 => without_top(rng).converse(),
            _ => partial_order(rng),
        };
        put(draft, lacking_first(rng, &order)?.book())
    }),
    Sort::new(
        3,
        "only the last pair lacks its upper level",
        |draft, rng| put(draft, two_tops_last(rng).book()),
    ),
    Sort::new(
        3,
        "only the last pair lacks its lower level",
        |draft, rng| put(draft, two_tops_last(rng).converse().book()),
    ),
];

fn put(draft: &mut Draft, book: Vec<u8>) -> Option<()> {
    draft.book = book;
    Some(())
}

/// Puts the book of an order, numbered in any way.
fn put_order(draft: &mut Draft, rng: &mut Rng, order: &Order) -> Option<()> {
    put(draft, numbered(rng, order).book())
}

/// A book that says n, with n rows, each above the row before where 16 bits say so.
fn chain_book(count: usize) -> Vec<u8> {
    let row = |i: usize| (u32::from(u16::MAX) << i.min(16)) as u16;
    let mut book = vec![count as u8];
    book.extend((0..count).flat_map(|i| row(i).to_be_bytes()));
    book
}

/// Damages the rows one to three times over, so that the smallest level has to be found.
fn damage_rows(
    draft: &mut Draft,
    rng: &mut Rng,
    damage: fn(&mut Order, &mut Rng) -> Option<()>,
) -> Option<()> {
    let mut order = draft.lattice.order.clone();
    for _ in 0..rng.between(1, 3) {
        damage(&mut order, rng)?;
    }
    put(draft, order.book())
}

fn pairs_below(order: &Order) -> Vec<(usize, usize)> {
    let count = order.count();
    let pairs = (0..count).flat_map(|i| (0..count).map(move |j| (i, j)));
    pairs
        .filter(|&(i, j)| i != j && order.at_most(i, j))
        .collect()
}

fn both_ways(order: &mut Order, rng: &mut Rng) -> Option<()> {
    let (lower, upper) = rng.pick(&pairs_below(order))?;
    order.rows[upper] |= 1 << lower;
    Some(())
}

/// Takes away i ≤ k where some j lies between.
fn gap(order: &mut Order, rng: &mut Rng) -> Option<()> {
    let pairs = pairs_below(order);
    let between = |&(i, k): &(usize, usize)| {
        pairs
            .iter()
            .any(|&(from, j)| from == i && j != k && order.at_most(j, k))
    };
    let gaps: Vec<(usize, usize)> = pairs.iter().copied().filter(between).collect();
    let (i, k) = rng.pick(&gaps)?;
    order.rows[i] &= !(1 << k);
    Some(())
}

/// A partial order with two or more greatest levels: a lattice without its top.
fn without_top(rng: &mut Rng) -> Order {
    let whole = match rng.below(3) {
        0 => side_by_side(rng.between(2, MOST_LEVELS - 2)),
        1 => powerset(rng.between(2, 4)),
        _ => stacked(&chain(rng.between(1, 5)), &side_by_side(rng.between(2, 5))),
    };
    let top = whole.count() - 1;
    Order::new(top, |i, j| whole.at_most(i, j))
}

/// A lattice, numbered in any way, below two levels side by side, which are the last.
fn two_tops_last(rng: &mut Rng) -> Order {
    let below = match rng.below(3) {
        0 => chain(often_most(rng, 1, MOST_LEVELS - 2)),
        1 => powerset(rng.between(1, 3)),
        _ => side_by_side(often_most(rng, 2, MOST_LEVELS - 4)),
    };
    stacked(&numbered(rng, &below), &Order::new(2, |i, j| i == j))
}

/// Two chains, and nothing between them.
fn two_parts(rng: &mut Rng) -> Order {
    let count = often_most(rng, 2, MOST_LEVELS);
    let cut = rng.between(1, count - 1);
    Order::new(count, |i, j| i <= j && (i < cut) == (j < cut))
}

/// A number from `low` to `most`, in one of four cases `most`.
fn often_most(rng: &mut Rng, low: usize, most: usize) -> usize {
    match rng.chance(1, 4) {
        true => most,
        false => rng.between(low, most),
    }
}

/// The order under numbers by which a pair that lacks a level comes first; none if it has no such pair.
fn lacking_first(rng: &mut Rng, order: &Order) -> Option<Order> {
    let (one, other) = rng.pick(&order.lacking_pairs())?;
    let mut number = rng.permutation(order.count());
    for (level, first) in [(one, 0), (other, 1)] {
        let holder = number.iter().position(|&n| n == first)?;
        number.swap(level, holder);
    }
    Some(order.renumbered(&number))
}

/// 0 below 1 and 2, both below 3 and 4, both below 5.
fn crossed() -> Order {
    let rank = [0, 1, 1, 2, 2, 3];
    Order::new(6, |i, j| i == j || rank[i] < rank[j])
}

/// The reflexive and transitive closure of random pairs i < j.
fn partial_order(rng: &mut Rng) -> Order {
    let count = rng.between(2, MOST_LEVELS);
    let dense = rng.between(1, 5);
    let mut order = Order::new(count, |i, j| i == j);
    for i in (0..count).rev() {
        for j in i + 1..count {
            if rng.chance(dense, 8) {
                order.rows[i] |= order.rows[j];
            }
        }
    }
    order
}

#[cfg(test)]
mod tests {
    use super::*;

    #[test]
    fn only_the_last_pair_lacks_a_level() {
        let mut rng = Rng::new(12);
        for _ in 0..500 {
            let order = two_tops_last(&mut rng);
            let last = (order.count() - 2, order.count() - 1);
            assert!(last.1 < MOST_LEVELS && order.least_upper(last.0, last.1).is_none());
            assert_eq!(order.lacking_pairs(), [last]);
            assert_eq!(order.converse().lacking_pairs(), [last]);
        }
    }

    #[test]
    fn the_first_pair_lacks_a_level() {
        let mut rng = Rng::new(13);
        for _ in 0..500 {
            let order = without_top(&mut rng);
            let first = lacking_first(&mut rng, &order).map(|order| order.lacking_pairs());
            assert!(first.is_some_and(|pairs| pairs.contains(&(0, 1))));
        }
        assert!(lacking_first(&mut rng, &chain(4)).is_none());
    }
}
