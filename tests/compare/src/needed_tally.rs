//! How much scripts beside every book of few levels were able to show.

use crate::floors;
use crate::flow_claims::absent;
use crate::needed_books::Asked;
use crate::small_books::Books;
use cases::order::Order;
use std::fmt;

/// The number of scripts that the floors are stated for; others in proportion.
const USUAL: u64 = 1000;

/// What a script may show beside the books, with its floor.
const SCRIPTS: [(&str, u64); 4] = [
    ("scripts that need something", USUAL / 3),
    ("scripts that need two levels both ways", USUAL / 20),
    (
        "scripts that a smaller book refuses and a larger one lets through",
        USUAL / 5,
    ),
    (
        "scripts with something needed that a smaller and a larger book let through",
        USUAL / 5,
    ),
];

/// What a try may show, with its floor. A try is a script under a book that has its levels.
const TRIES: [(&str, u64); 6] = [
    ("tries", 150 * USUAL),
    ("tries let through, with something needed", 20 * USUAL),
    (
        "tries let through by a pair that follows from others",
        5 * USUAL,
    ),
    (
        "tries let through under levels side by side, with something needed",
        10 * USUAL,
    ),
    ("tries refused", 40 * USUAL),
    ("tries refused for one of several pairs", 5 * USUAL),
];

pub struct Tally {
    wanted: u64,
    scripts: [u64; SCRIPTS.len()],
    tries: [u64; TRIES.len()],
}

impl Tally {
    /// How many counts have a floor.
    pub const FLOORS: usize = SCRIPTS.len() + TRIES.len();

    pub fn new(wanted: u64) -> Tally {
        Tally {
            wanted,
            scripts: [0; SCRIPTS.len()],
            tries: [0; TRIES.len()],
        }
    }

    pub fn record(&mut self, asked: &Asked, books: &Books) {
        let pairs: Vec<(usize, usize)> = asked.flows.pairs().collect();
        let needs = !pairs.is_empty();
        let both_ways = pairs.iter().any(|&(i, j)| pairs.contains(&(j, i)));
        let of_two = |numbers: [u32; 2]| {
            let mut two = books.larger.iter();
            two.any(|&(one, other)| [one, other].map(|book| asked.numbers[book]) == numbers)
        };
        let shown = [needs, both_ways, of_two([11, 0]), needs && of_two([0, 0])];
        count(&mut self.scripts, shown);
        for book in books.with_levels(asked.levels) {
            let order = &books.orders[book];
            let through = asked.numbers[book] == 0;
            let by_others = pairs.iter().any(|&(i, j)| follows(order, i, j));
            let shown = [
                true,
                through && needs,
                through && by_others,
                through && needs && has_side_by_side(order),
                !through,
                absent(order, &asked.flows) == 1 && pairs.len() > 1,
            ];
            count(&mut self.tries, shown);
        }
    }

    /// Each count with its name and its floor.
    fn rows(&self) -> impl Iterator<Item = (&'static str, u64, u64)> {
        let counts = self.scripts.into_iter().chain(self.tries);
        let notes = SCRIPTS.into_iter().chain(TRIES);
        let rows = notes.zip(counts);
        rows.map(|((note, floor), count)| (note, count, floor))
    }

    /// What was reached too seldom.
    pub fn missing(&self) -> Vec<String> {
        let too_few = |(note, seen, floor): (&str, u64, u64)| {
            let floor = floors::floor(floor, self.wanted, USUAL);
            (seen < floor).then(|| format!("{note}: {seen} of at least {floor}"))
        };
        self.rows().filter_map(too_few).collect()
    }
}

/// Counts what was shown.
fn count<const N: usize>(counts: &mut [u64; N], shown: [bool; N]) {
    let counts = counts.iter_mut().zip(shown);
    counts.for_each(|(count, shown)| *count += u64::from(shown));
}

impl fmt::Display for Tally {
    fn fmt(&self, out: &mut fmt::Formatter) -> fmt::Result {
        for (note, count, _) in self.rows() {
            writeln!(out, "  {note:<76} {count:>8}")?;
        }
        Ok(())
    }
}

/// Whether a level lies between, so that the pair follows from two others of the book.
fn follows(order: &Order, i: usize, j: usize) -> bool {
    let between = |k: usize| k != i && k != j && order.at_most(i, k) && order.at_most(k, j);
    (0..order.count()).any(between)
}

fn has_side_by_side(order: &Order) -> bool {
    let mut pairs = (0..order.count()).flat_map(|j| (0..j).map(move |i| (i, j)));
    pairs.any(|(i, j)| !order.at_most(i, j) && !order.at_most(j, i))
}
