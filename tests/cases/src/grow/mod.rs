//! Random well-scoped scripts.
//!
//! A process grows within bounds: it writes only names at or above the one level and tests only names
//! at or below the other. The bounds of the parts are chosen so that every need of 01's list of write
//! and test levels holds. A careless script breaks one rule now and then, and may be refused.

mod bounds;
mod division;
mod emission;
mod expression;
mod forms;
mod leaks;
mod patterns;

use crate::file::{MOST_EXPRESSIONS, MOST_NAMES};
use crate::order::Lattice;
use crate::rng::Rng;
use crate::tree::{Name, Process, Script};
use bounds::Bounds;
pub use bounds::{Careless, Rule};
pub use expression::value;

/// What a script to be grown should be like.
#[derive(Clone, Copy, Debug)]
pub struct Style {
    /// About how many nodes; never more.
    pub nodes: usize,
    /// The number of session names.
    pub session_names: usize,
    /// Names of several levels rather than of one.
    pub mixed: bool,
    /// The rule that is broken now and then.
    pub careless: Option<Careless>,
}

struct Grower<'r> {
    rng: &'r mut Rng,
    lattice: &'r Lattice,
    careless: Option<Careless>,
    /// The levels that names get: few, so that names of one level meet.
    levels: Vec<usize>,
    names: Vec<Name>,
    /// How many of the names, the first, are session names.
    session_names: usize,
    /// The names in reach.
    scope: Vec<usize>,
    /// How many expressions the file may still take.
    expressions: usize,
}

/// Grows a script over the levels of `lattice`.
pub fn script(rng: &mut Rng, lattice: &Lattice, style: Style) -> Script {
    let levels = some_levels(rng, lattice, style.mixed);
    let mut grower = Grower {
        rng,
        lattice,
        careless: style.careless,
        levels,
        names: vec![],
        session_names: 0,
        scope: vec![],
        expressions: MOST_EXPRESSIONS,
    };
    for _ in 0..style.session_names.min(MOST_NAMES) {
        grower.session_name();
    }
    grower.session_names = grower.names.len();
    let free = Bounds {
        write: lattice.bottom,
        test: lattice.top,
    };
    let root = match grower.rng.below(8) {
        0 | 1 => grower.with_clock(free, style.nodes),
        2 => grower.in_two_phases(free, style.nodes),
        3 | 4 => grower.in_stages(free, style.nodes),
        _ => grower.process(free, style.nodes),
    };
    Script {
        names: grower.names,
        root,
    }
}

/// One to four levels; if `mixed`, two of them one below the other, as far as the lattice has such.
fn some_levels(rng: &mut Rng, lattice: &Lattice, mixed: bool) -> Vec<usize> {
    let (first, second) = (rng.below(lattice.count()), rng.below(lattice.count()));
    let mut levels = match rng.below(if mixed { 4 } else { 6 }) {
        0 | 1 => vec![lattice.bottom, lattice.top],
        2 => vec![lattice.bottom, first, lattice.top],
        3 => vec![lattice.meet(first, second), first, second],
        _ => vec![first],
    };
    if rng.chance(1, 4) {
        levels.push(rng.below(lattice.count()));
    }
    levels
}

impl Grower<'_> {
    fn session_name(&mut self) {
        let level = self.some_level();
        self.scope.push(self.names.len());
        self.names.push(Name {
            signal: self.rng.chance(1, 2),
            level,
        });
    }

    /// A fresh owned name, now in reach; none if the names are used up.
    fn declare(&mut self, signal: bool, level: usize) -> Option<usize> {
        if self.names.len() >= MOST_NAMES {
            return None;
        }
        self.scope.push(self.names.len());
        self.names.push(Name { signal, level });
        self.scope.last().copied()
    }

    /// Two fresh signals that only the caller uses.
    fn two_signals(&mut self, level: usize) -> Option<(usize, usize)> {
        if self.names.len() + 2 > MOST_NAMES {
            return None;
        }
        let (first, second) = (self.declare(true, level)?, self.declare(true, level)?);
        self.scope.truncate(self.scope.len() - 2);
        Some((first, second))
    }

    /// A name in reach of the kind, at a level that fits; often the one declared last.
    fn name(&mut self, signal: bool, fits: impl Fn(&Lattice, usize) -> bool) -> Option<usize> {
        let any_level = self.breaks(Rule::Name);
        let (names, lattice) = (&self.names, self.lattice);
        let chosen = |name: &usize| {
            let Name {
                signal: kind,
                level,
                ..
            } = names[*name];
            kind == signal && (any_level || fits(lattice, level))
        };
        let all: Vec<usize> = self.scope.iter().copied().filter(chosen).collect();
        match self.rng.chance(1, 4) {
            true => all.last().copied(),
            false => self.rng.pick(&all),
        }
    }

    /// A session signal that may be tested, which a list may name.
    fn session_signal(&mut self, bounds: Bounds) -> Option<usize> {
        let (names, lattice) = (&self.names[..self.session_names], self.lattice);
        let tested =
            |&name: &usize| names[name].signal && lattice.at_most(names[name].level, bounds.test);
        let all: Vec<usize> = (0..names.len()).filter(tested).collect();
        self.rng.pick(&all)
    }

    /// Splits the nodes below a node of two children.
    fn split(&mut self, size: usize) -> (usize, usize) {
        let first = self.rng.between(1, size.saturating_sub(2));
        (first, size.saturating_sub(1 + first))
    }

    fn leaf(&mut self, bounds: Bounds) -> Process {
        let write = bounds.write;
        let process = match self.rng.below(10) {
            0 => None,
            1..=5 if self.has_expressions() => self.assignment(write),
            _ => self
                .name(true, |lattice, level| lattice.at_most(write, level))
                .map(Process::Emit),
        };
        process.unwrap_or(Process::Nil)
    }

    /// An assignment, now and then of the value that the register holds.
    fn assignment(&mut self, write: usize) -> Option<Process> {
        let name = self.name(false, |lattice, level| lattice.at_most(write, level))?;
        let value = match self.rng.chance(1, 16) {
            true => self.itself(name),
            false => self.expression(self.names[name].level),
        };
        Some(Process::Assign(name, value))
    }
}
