//! The relation 'at or below' that a level book gives (01, 'Level book').

use crate::fault::{Fault, Rules};

/// The number of a level.
pub type Level = usize;

/// A book has at most 16 levels.
pub const MOST_LEVELS: usize = 16;

/// A set of levels for each level; bit k of a set stands for level k.
pub type LevelSets = [u16; MOST_LEVELS];

/// A relation of n levels; `read` takes it from a book as it is, right or not.
#[derive(Clone, Debug)]
pub struct Order {
    count: usize,
    /// Bit j of row i: level i is at or below level j.
    rows: LevelSets,
}

impl Order {
    /// The relation with these rows, at most 16 of them.
    pub fn of_rows(given: impl ExactSizeIterator<Item = u16>) -> Order {
        let count = given.len();
        let mut rows = [0; MOST_LEVELS];
        rows.iter_mut()
            .zip(given)
            .for_each(|(row, bits)| *row = bits);
        Order { count, rows }
    }

    /// The rows of a book that row 1 of the table lets through.
    pub fn read(bytes: &[u8]) -> Order {
        let pairs = bytes[1..].chunks_exact(2);
        Order::of_rows(pairs.map(|pair| u16::from_be_bytes([pair[0], pair[1]])))
    }

    /// The number of levels, n.
    pub fn count(&self) -> usize {
        self.count
    }

    pub fn levels(&self) -> std::ops::Range<Level> {
        0..self.count
    }

    /// The bits that stand for a level of the book.
    fn all(&self) -> u16 {
        ((1u32 << self.count) - 1) as u16
    }

    pub fn at_or_below(&self, i: Level, j: Level) -> bool {
        (u32::from(self.rows[i]) >> j) & 1 == 1
    }

    /// For each level the set of the levels that it is at or below.
    pub fn upper_sets(&self) -> LevelSets {
        self.rows.map(|row| row & self.all())
    }

    /// For each level the set of the levels at or below it.
    pub fn lower_sets(&self) -> LevelSets {
        let mut sets = [0; MOST_LEVELS];
        for j in self.levels() {
            let below = self.levels().filter(|&i| self.at_or_below(i, j));
            sets[j] = below.fold(0, |set, i| set | 1 << i);
        }
        sets
    }

    /// Refusal 2's sentence for one level: it 'lacks its own bit, has a bit at n
    /// or above, holds both ways with another, or is at or below j, j at or
    /// below k, but i is not at or below k'. j and k are levels of the book.
    pub fn breaks_the_order(&self, rules: Rules, i: Level) -> bool {
        let own_bit = self.at_or_below(i, i);
        let bit_outside = self.rows[i] & !self.all() != 0;
        let others = || self.levels().filter(|&j| j != i && self.at_or_below(i, j));
        let both_ways = others().any(|j| self.at_or_below(j, i));
        let gap = others().any(|j| self.rows[j] & self.all() & !self.rows[i] != 0);
        !own_bit
            || bit_outside
            || (both_ways && !rules.has(Fault::OrderBothWays))
            || (gap && !rules.has(Fault::OrderNotTransitive))
    }
}
