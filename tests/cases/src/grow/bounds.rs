//! Which levels a process may write and test, and which rule a careless script breaks.

use super::Grower;

#[derive(Clone, Copy, Debug)]
pub struct Bounds {
    /// Every name written is at or above this level.
    pub write: usize,
    /// Every name tested is at or below this level.
    pub test: usize,
}

impl Bounds {
    /// Everything that is written and tested has this level.
    pub fn exactly(level: usize) -> Bounds {
        Bounds {
            write: level,
            test: level,
        }
    }
}

/// What a script is careless about.
#[derive(Clone, Copy, Debug, PartialEq, Eq)]
pub enum Rule {
    /// A name of any level is written or tested.
    Name,
    /// A let's expression reads a register of any level.
    Let,
    /// A branch may write below the level of its test.
    If,
    /// A body may write below the level of the signal that it waits for.
    When,
    /// A body may write below the level of the signal that cuts it off.
    Watching,
    /// A loop's body may test above what it writes.
    While,
    /// A second part may write below what the first tests.
    Sequence,
    /// A left part may write below what the right part tests.
    Parallel,
}

impl Rule {
    pub const ALL: [Rule; 8] = [
        Rule::Name,
        Rule::Let,
        Rule::If,
        Rule::When,
        Rule::Watching,
        Rule::While,
        Rule::Sequence,
        Rule::Parallel,
    ];
}

/// A rule, and that one use of it in so many breaks it.
#[derive(Clone, Copy, Debug)]
pub struct Careless {
    pub rule: Rule,
    pub one_in: usize,
}

impl Grower<'_> {
    /// Whether this use of a rule breaks it.
    pub fn breaks(&mut self, rule: Rule) -> bool {
        match self.careless {
            Some(careless) if careless.rule == rule => self.rng.chance(1, careless.one_in),
            _ => false,
        }
    }

    pub fn some_level(&mut self) -> usize {
        self.rng.pick(&self.levels).unwrap_or(self.lattice.bottom)
    }

    /// A level that may be written and tested within the bounds, if there is one.
    pub fn middle(&mut self, bounds: Bounds) -> Option<usize> {
        if !self.lattice.at_most(bounds.write, bounds.test) {
            return None;
        }
        let level = self.some_level();
        Some(
            self.lattice
                .meet(self.lattice.join(level, bounds.write), bounds.test),
        )
    }

    pub fn tests_at_most(&self, bounds: Bounds, level: usize) -> Bounds {
        Bounds {
            test: self.lattice.meet(bounds.test, level),
            ..bounds
        }
    }

    pub fn writes_at_least(&self, bounds: Bounds, level: usize) -> Bounds {
        Bounds {
            write: self.lattice.join(bounds.write, level),
            ..bounds
        }
    }

    /// The bounds of a body that runs if a test of the level holds.
    pub fn guarded(&mut self, rule: Rule, bounds: Bounds, level: usize) -> Bounds {
        match self.breaks(rule) {
            true => bounds,
            false => self.writes_at_least(bounds, level),
        }
    }

    /// The bounds of a loop's body: every test is at or below every write.
    pub fn looped(&mut self, bounds: Bounds) -> Bounds {
        let level = self.middle(bounds).unwrap_or(bounds.write);
        let writes = self.writes_at_least(bounds, level);
        match self.breaks(Rule::While) {
            true => writes,
            false => self.tests_at_most(writes, writes.write),
        }
    }

    /// The bounds of the parts of a sequence: T of the first is at or below W of the second.
    pub fn before_and_after(&mut self, bounds: Bounds) -> (Bounds, Bounds) {
        let between = self.middle(bounds).unwrap_or(bounds.test);
        match self.breaks(Rule::Sequence) {
            true => (bounds, bounds),
            false => (
                self.tests_at_most(bounds, between),
                self.writes_at_least(bounds, between),
            ),
        }
    }

    /// The bounds of the parts of a parallel: T of each is at or below W of the other.
    pub fn left_and_right(&mut self, bounds: Bounds) -> (Bounds, Bounds) {
        let middle = self.middle(bounds).unwrap_or(bounds.test);
        let other = if self.rng.chance(1, 3) {
            self.some_level()
        } else {
            middle
        };
        let (left, right) = (
            self.tests_at_most(bounds, middle),
            self.writes_at_least(bounds, middle),
        );
        match self.breaks(Rule::Parallel) {
            true => (left, right),
            false => (
                self.writes_at_least(left, other),
                self.tests_at_most(right, other),
            ),
        }
    }
}
