//! The level book (01, 'Level book'): refusals 1 to 3, join and meet.

use crate::fault::{Fault, Rules};
use crate::order::Order;
pub use crate::order::{Level, MOST_LEVELS};
use crate::refusal::{row, Refusal};
use crate::sweep::{pair_count, sweep, Tables};

/// A checked level book.
pub struct Book {
    order: Order,
    tables: Tables,
}

/// Row 1: 'n or length wrong', place 0.
fn refusal_1(bytes: &[u8]) -> Option<usize> {
    let count = bytes.first().map_or(0, |&n| n as usize);
    let right = (1..=MOST_LEVELS).contains(&count) && bytes.len() == 1 + 2 * count;
    (!right).then_some(0)
}

/// Row 2: the 'smallest such i'.
fn refusal_2(rules: Rules, order: &Order) -> Option<usize> {
    let mut found = order.levels().filter(|&i| order.breaks_the_order(rules, i));
    if rules.has(Fault::OrderPlaceLargest) {
        return found.next_back();
    }
    found.next()
}

impl Book {
    /// Row 3, 'a pair i < j lacks one' (a least common upper or a greatest common
    /// lower level), is what the sweep over all pairs finds.
    pub fn read(rules: Rules, bytes: &[u8]) -> Result<Book, Refusal> {
        row(1, refusal_1(bytes))?;
        let order = Order::read(bytes);
        row(2, refusal_2(rules, &order))?;
        let mut tables = Tables::before_the_sweep(rules, &order);
        let swept = sweep(rules, &order, pair_count(order.count()), &mut tables);
        row(3, swept.lacking)?;
        Ok(Book { order, tables })
    }

    /// The number of levels, n.
    pub fn count(&self) -> usize {
        self.order.count()
    }

    pub fn levels(&self) -> std::ops::Range<Level> {
        self.order.levels()
    }

    pub fn at_or_below(&self, i: Level, j: Level) -> bool {
        self.order.at_or_below(i, j)
    }

    pub fn join(&self, i: Level, j: Level) -> Level {
        self.tables.joins[i][j] as Level
    }

    pub fn meet(&self, i: Level, j: Level) -> Level {
        self.tables.meets[i][j] as Level
    }

    /// 'The least level of all is called bottom'. Only a planted fault lets a book
    /// through that has none.
    pub fn bottom(&self) -> Level {
        let least = |&i: &Level| self.levels().all(|j| self.at_or_below(i, j));
        self.levels().find(least).unwrap_or(0)
    }

    /// '... the greatest top.'
    pub fn top(&self) -> Level {
        let greatest = |&i: &Level| self.levels().all(|j| self.at_or_below(j, i));
        self.levels().find(greatest).unwrap_or(0)
    }
}
