//! How much the pairs of runs that were tried for demand 3 were able to show.

use crate::demand_three::{Ran, Start};
use crate::floors;
use std::fmt;

#[derive(Default)]
pub struct Tally {
    /// How many pairs were asked for.
    wanted: u64,
    pub pairs: u64,
    with_lines: u64,
    starts_differ: u64,
    lists_differ: u64,
    paths_differ: u64,
    paths_differ_by_lists: u64,
    values_differ: u64,
    limits_differ: u64,
    log_full: u64,
    several_instants: u64,
}

/// The number of pairs that the floors are stated for; others in proportion.
const USUAL: u64 = 20_000;

impl Tally {
    /// How many counts have a floor.
    pub const FLOORS: usize = 10;

    pub fn new(wanted: u64) -> Tally {
        Tally {
            wanted,
            ..Tally::default()
        }
    }

    /// Counts a pair of runs with their starts.
    pub fn record(&mut self, [first, second]: [&Ran; 2], [one, other]: &[Start; 2]) {
        let [_, _, ending, _, instants, lines] = first.out;
        let paths_differ = one.limit == other.limit && first.out[2..5] != second.out[2..5];
        let starts_differ = one.values != other.values;
        self.pairs += 1;
        self.with_lines += u64::from(lines > 0);
        self.starts_differ += u64::from(starts_differ);
        self.lists_differ += u64::from(one.list != other.list);
        self.paths_differ += u64::from(paths_differ);
        self.paths_differ_by_lists += u64::from(paths_differ && !starts_differ);
        self.values_differ += u64::from(first.values != second.values);
        self.limits_differ += u64::from(one.limit < other.limit);
        self.log_full += u64::from(ending == 2);
        self.several_instants += u64::from(instants > 1);
    }

    /// Each count with its name and its floor. Runs that differ in ending, steps or instants are few, since
    /// a script that tests what is sealed must be accepted first.
    fn rows(&self) -> [(&'static str, u64, u64); Tally::FLOORS] {
        [
            ("pairs of runs", self.pairs, USUAL),
            ("pairs with lines in the record", self.with_lines, USUAL / 5),
            (
                "pairs that start differently",
                self.starts_differ,
                USUAL / 3,
            ),
            ("pairs with different lists", self.lists_differ, USUAL / 3),
            (
                "pairs that differ in ending, steps or instants",
                self.paths_differ,
                USUAL / 80,
            ),
            (
                "pairs that differ so by their lists alone",
                self.paths_differ_by_lists,
                USUAL / 200,
            ),
            (
                "pairs that end with different values",
                self.values_differ,
                USUAL / 5,
            ),
            ("pairs with n < m", self.limits_differ, USUAL / 5),
            ("pairs that fill the log", self.log_full, USUAL / 40),
            (
                "pairs over several instants",
                self.several_instants,
                USUAL / 5,
            ),
        ]
    }

    /// What was reached too seldom.
    pub fn missing(&self) -> Vec<String> {
        let too_few = |(what, seen, floor): (&str, u64, u64)| {
            let floor = floors::floor(floor, self.wanted, USUAL);
            (seen < floor).then(|| format!("{what}: {seen} of at least {floor}"))
        };
        self.rows().into_iter().filter_map(too_few).collect()
    }
}

impl fmt::Display for Tally {
    fn fmt(&self, out: &mut fmt::Formatter) -> fmt::Result {
        for (what, count, _) in self.rows() {
            writeln!(out, "  {what:<72} {count:>8}")?;
        }
        Ok(())
    }
}
