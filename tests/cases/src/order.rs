//! Orders on at most 16 levels, the lattices among them, and the level book's bytes.

use crate::rng::Rng;

/// The most levels that a book may hold.
pub const MOST_LEVELS: usize = 16;

/// A relation on levels as the level book writes it: bit j of row i says that i is at or below j.
#[derive(Clone, Debug, PartialEq, Eq)]
pub struct Order {
    pub rows: Vec<u16>,
}

impl Order {
    /// The relation that `at_most` gives on `count` levels.
    pub fn new(count: usize, at_most: impl Fn(usize, usize) -> bool) -> Order {
        let row = |i| (0..count).fold(0, |row, j| row | (u16::from(at_most(i, j)) << j));
        Order {
            rows: (0..count).map(row).collect(),
        }
    }

    pub fn count(&self) -> usize {
        self.rows.len()
    }

    pub fn at_most(&self, i: usize, j: usize) -> bool {
        self.rows[i] >> j & 1 == 1
    }

    fn levels(&self) -> std::ops::Range<usize> {
        0..self.count()
    }

    /// The least common upper level of i and j, where there is one.
    pub fn least_upper(&self, i: usize, j: usize) -> Option<usize> {
        let uppers = self.rows[i] & self.rows[j];
        self.levels()
            .find(|&k| self.at_most(i, k) && self.at_most(j, k) && self.rows[k] == uppers)
    }

    /// The order upside down.
    pub fn converse(&self) -> Order {
        Order::new(self.count(), |i, j| self.at_most(j, i))
    }

    /// The pairs i < j of this partial order that lack a common upper or a common lower level.
    pub fn lacking_pairs(&self) -> Vec<(usize, usize)> {
        let converse = self.converse();
        let lacks = |&(i, j): &(usize, usize)| {
            self.least_upper(i, j).is_none() || converse.least_upper(i, j).is_none()
        };
        let pairs = self.levels().flat_map(|j| (0..j).map(move |i| (i, j)));
        pairs.filter(lacks).collect()
    }

    /// Whether this partial order is a lattice.
    pub fn is_lattice(&self) -> bool {
        self.lacking_pairs().is_empty()
    }

    /// The same order under other level numbers: level i becomes level `number[i]`.
    pub fn renumbered(&self, number: &[usize]) -> Order {
        let mut old = vec![0; number.len()];
        for (from, &to) in number.iter().enumerate() {
            old[to] = from;
        }
        Order::new(self.count(), |i, j| self.at_most(old[i], old[j]))
    }

    /// The rows of a level book.
    pub fn read(book: &[u8]) -> Order {
        let rows = book.get(1..).unwrap_or_default().chunks_exact(2);
        Order {
            rows: rows
                .map(|row| u16::from_be_bytes([row[0], row[1]]))
                .collect(),
        }
    }

    /// The level book: one byte for the count, two bytes for each row.
    pub fn book(&self) -> Vec<u8> {
        let mut bytes = vec![self.count() as u8];
        bytes.extend(self.rows.iter().flat_map(|row| row.to_be_bytes()));
        bytes
    }
}

/// A lattice with its joins and meets, for choosing levels.
#[derive(Clone, Debug)]
pub struct Lattice {
    pub order: Order,
    joins: Vec<Vec<usize>>,
    meets: Vec<Vec<usize>>,
    pub bottom: usize,
    pub top: usize,
}

impl Lattice {
    /// The lattice of an order that is one; a pair without a common level would count as level 0.
    pub fn of(order: Order) -> Lattice {
        let table = |order: &Order| -> Vec<Vec<usize>> {
            let row = |i| {
                order
                    .levels()
                    .map(|j| order.least_upper(i, j).unwrap_or(0))
                    .collect()
            };
            order.levels().map(row).collect()
        };
        let (joins, meets) = (table(&order), table(&order.converse()));
        let all = |table: &[Vec<usize>]| order.levels().fold(0, |level, i| table[level][i]);
        let (bottom, top) = (all(&meets), all(&joins));
        Lattice {
            order,
            joins,
            meets,
            bottom,
            top,
        }
    }

    pub fn count(&self) -> usize {
        self.order.count()
    }

    pub fn at_most(&self, i: usize, j: usize) -> bool {
        self.order.at_most(i, j)
    }

    pub fn join(&self, i: usize, j: usize) -> usize {
        self.joins[i][j]
    }

    pub fn meet(&self, i: usize, j: usize) -> usize {
        self.meets[i][j]
    }
}

/// The levels of a shape get other numbers: from low to high, as shapes are made, from high to low, or at
/// random.
pub fn numbered(rng: &mut Rng, shape: &Order) -> Order {
    let numbers: Vec<usize> = match rng.below(4) {
        0 => (0..shape.count()).collect(),
        1 => (0..shape.count()).rev().collect(),
        _ => rng.permutation(shape.count()),
    };
    shape.renumbered(&numbers)
}

/// A random lattice, numbered in any way.
pub fn lattice(rng: &mut Rng) -> Lattice {
    let shape = match rng.below(12) {
        0 => chain(1),
        1 | 2 => chain(2),
        3 => chain(rng.between(3, MOST_LEVELS)),
        4 | 5 => powerset(rng.between(1, 4)),
        6 => product(&chain(2), &chain(rng.between(3, 8))),
        7 => product(&chain(rng.between(3, 4)), &chain(rng.between(3, 4))),
        8 => side_by_side(rng.between(3, MOST_LEVELS - 2)),
        9 => pentagon(),
        10 => stacked(&side_by_side(rng.between(2, 3)), &chain(rng.between(2, 5))),
        _ => closure_system(rng),
    };
    Lattice::of(numbered(rng, &shape))
}

/// A random lattice of two levels or more, mostly of few.
pub fn some_levels(rng: &mut Rng) -> Lattice {
    let shape = match rng.below(8) {
        0..=2 => chain(2),
        3 => chain(rng.between(3, 5)),
        4 => powerset(2),
        5 => side_by_side(3),
        6 => pentagon(),
        _ => powerset(rng.between(3, 4)),
    };
    Lattice::of(numbered(rng, &shape))
}

pub fn chain(count: usize) -> Order {
    Order::new(count, |i, j| i <= j)
}

/// The subsets of `bits` elements, by inclusion.
pub fn powerset(bits: usize) -> Order {
    Order::new(1 << bits, |i, j| i & j == i)
}

pub fn product(left: &Order, right: &Order) -> Order {
    let width = right.count();
    Order::new(left.count() * width, |i, j| {
        left.at_most(i / width, j / width) && right.at_most(i % width, j % width)
    })
}

/// A bottom, a top, and `middle` levels side by side between them; with 3 this is the diamond M3.
pub fn side_by_side(middle: usize) -> Order {
    let top = middle + 1;
    Order::new(middle + 2, |i, j| i == j || i == 0 || j == top)
}

/// The pentagon N5: 0 < 1 < 2 < 4 and 0 < 3 < 4.
pub fn pentagon() -> Order {
    Order::new(5, |i, j| i == j || i == 0 || j == 4 || (i == 1 && j == 2))
}

/// All of `upper` above all of `lower`.
pub fn stacked(lower: &Order, upper: &Order) -> Order {
    let cut = lower.count();
    Order::new(cut + upper.count(), |i, j| match (i < cut, j < cut) {
        (true, true) => lower.at_most(i, j),
        (false, false) => upper.at_most(i - cut, j - cut),
        (below, _) => below,
    })
}

/// A random family of sets that is closed under intersection and has a greatest set; by inclusion
/// such a family is a lattice, and every finite lattice is one.
fn closure_system(rng: &mut Rng) -> Order {
    let mut sets: Vec<u8> = vec![0x1f];
    for _ in 0..rng.between(1, 9) {
        let new = rng.below(32) as u8;
        let mut grown: Vec<u8> = sets
            .iter()
            .map(|set| set & new)
            .chain(sets.clone())
            .collect();
        grown.sort_unstable();
        grown.dedup();
        if grown.len() <= MOST_LEVELS {
            sets = grown;
        }
    }
    Order::new(sets.len(), |i, j| sets[i] & sets[j] == sets[i])
}

#[cfg(test)]
mod tests {
    use super::*;

    #[test]
    fn every_random_lattice_is_one() {
        let mut rng = Rng::new(7);
        for _ in 0..2000 {
            let lattice = lattice(&mut rng);
            assert!(lattice.order.is_lattice());
            assert!((0..lattice.count()).all(|i| lattice.at_most(lattice.bottom, i)));
            assert!((0..lattice.count()).all(|i| lattice.at_most(i, lattice.top)));
        }
    }

    #[test]
    fn a_book_reads_back() {
        let mut rng = Rng::new(9);
        for _ in 0..100 {
            let order = lattice(&mut rng).order;
            assert_eq!(Order::read(&order.book()), order);
        }
    }

    #[test]
    fn shapes_go_from_low_to_high() {
        let mut rng = Rng::new(10);
        let shapes = [
            chain(4),
            powerset(3),
            product(&chain(2), &chain(3)),
            side_by_side(3),
            pentagon(),
            stacked(&side_by_side(2), &chain(2)),
            closure_system(&mut rng),
        ];
        for shape in shapes {
            let pairs = shape.levels().flat_map(|i| (0..i).map(move |j| (i, j)));
            assert!(pairs.into_iter().all(|(i, j)| !shape.at_most(i, j)));
        }
    }

    #[test]
    fn every_count_of_levels_occurs() {
        let mut rng = Rng::new(8);
        let mut seen = [false; MOST_LEVELS + 1];
        for _ in 0..4000 {
            seen[lattice(&mut rng).count()] = true;
        }
        assert!(seen[1..].iter().all(|&count| count));
    }
}
