//! Scripts whose names have any levels, whatever is at or below what: a book refuses most of them for
//! flow, and what they would need are many pairs.

use crate::file::File;
use crate::order::MOST_LEVELS;
use crate::rng::Rng;
use crate::tree::*;

/// The most nodes, so that names and expressions stay within their limits: a node declares at most one
/// name, and its expression has at most `MOST_OPERANDS` entries and as many operators.
pub const MOST_NODES: usize = 30;
const MOST_OPERANDS: usize = 4;

/// The most session names of each kind.
const MOST_SESSION_NAMES: usize = 3;

/// A script of at most `nodes` nodes, up to `MOST_NODES`, whose names have levels below `levels`. Forms
/// and names are chosen whatever the levels are.
pub fn script(rng: &mut Rng, levels: usize, nodes: usize) -> Script {
    let levels = few_levels(rng, levels);
    let mut grower = Grower {
        rng,
        levels,
        names: vec![],
        scope: vec![],
    };
    for signal in [false, true] {
        for _ in 0..grower.rng.between(1, MOST_SESSION_NAMES) {
            grower.declare(signal);
        }
    }
    let root = grower.process(nodes.min(MOST_NODES));
    Script {
        names: grower.names,
        root,
    }
}

struct Grower<'r> {
    rng: &'r mut Rng,
    /// The levels that names get.
    levels: Vec<usize>,
    names: Vec<Name>,
    /// The names in reach: at least a register and a signal.
    scope: Vec<usize>,
}

impl Grower<'_> {
    /// A fresh name, now in reach.
    fn declare(&mut self, signal: bool) -> usize {
        let level = self.rng.pick(&self.levels).unwrap_or(0);
        self.scope.push(self.names.len());
        self.names.push(Name { signal, level });
        self.names.len() - 1
    }

    /// A name in reach.
    fn name(&mut self, signal: bool) -> usize {
        let of_kind = |&name: &usize| self.names[name].signal == signal;
        let names: Vec<usize> = self.scope.iter().copied().filter(of_kind).collect();
        self.rng.pick(&names).unwrap_or(0)
    }

    /// An expression of at most so many registers and constants.
    fn expression(&mut self, operands: usize) -> Expression {
        let left = self.rng.between(1, operands.saturating_sub(1));
        match self.rng.below(6) {
            0 => Expression::Constant(self.rng.below(3) as i32),
            1 if operands > 1 => not(self.expression(operands - 1)),
            2 | 3 if operands > 1 => {
                let operator = OPERATORS[self.rng.below(OPERATORS.len())];
                let first = self.expression(left);
                binary(operator, first, self.expression(operands - left))
            }
            _ => Expression::Register(self.name(false)),
        }
    }

    fn any_expression(&mut self) -> Expression {
        self.expression(MOST_OPERANDS)
    }

    fn process(&mut self, nodes: usize) -> Process {
        match nodes {
            0 | 1 => self.leaf(),
            2 => self.around(1),
            _ if self.rng.chance(1, 2) => self.around(nodes - 1),
            _ => self.joined(nodes - 1),
        }
    }

    fn leaf(&mut self) -> Process {
        match self.rng.below(5) {
            0 => Process::Nil,
            1 | 2 => Process::Emit(self.name(true)),
            _ => Process::Assign(self.name(false), self.any_expression()),
        }
    }

    /// A form with one body.
    fn around(&mut self, nodes: usize) -> Process {
        match self.rng.below(5) {
            0 => while_do(self.any_expression(), self.process(nodes)),
            1 => watching(self.name(true), self.process(nodes)),
            2 => when(self.name(true), self.process(nodes)),
            3 => {
                let value = self.any_expression();
                let register = self.declare(false);
                let_in(register, value, self.body(nodes))
            }
            _ => local(self.declare(true), self.body(nodes)),
        }
    }

    /// The body of the name that was declared last, which is then out of reach.
    fn body(&mut self, nodes: usize) -> Process {
        let body = self.process(nodes);
        self.scope.pop();
        body
    }

    /// A form with two parts.
    fn joined(&mut self, nodes: usize) -> Process {
        let first = self.rng.between(1, nodes - 1);
        let (one, other) = (self.process(first), self.process(nodes - first));
        match self.rng.below(3) {
            0 => if_else(self.any_expression(), one, other),
            1 => sequence(one, other),
            _ => parallel(one, other),
        }
    }
}

/// Up to four levels, so that names of one level meet.
fn few_levels(rng: &mut Rng, levels: usize) -> Vec<usize> {
    (0..rng.between(2, 4)).map(|_| rng.below(levels)).collect()
}

/// The file with any of all levels for its names; of one file in sixteen, a name has a level past the last.
pub fn with_other_levels(rng: &mut Rng, file: &File) -> File {
    let mut file = file.clone();
    let few = few_levels(rng, MOST_LEVELS);
    let all = rng.chance(1, 4);
    for name in &mut file.names {
        let level = match all {
            true => rng.below(MOST_LEVELS),
            false => rng.pick(&few).unwrap_or(0),
        };
        name.level = level as u8;
    }
    let place = rng.below(file.names.len());
    if let (Some(name), true) = (file.names.get_mut(place), rng.chance(1, 16)) {
        name.level = rng.between(MOST_LEVELS, MOST_LEVELS + 2) as u8;
    }
    file
}

#[cfg(test)]
mod tests {
    use super::*;
    use crate::file::{self, MOST_EXPRESSIONS, MOST_NAMES};

    #[test]
    fn scripts_stay_within_the_limits() {
        let mut rng = Rng::new(16);
        for _ in 0..500 {
            let Script { names, root } = script(&mut rng, 9, 2 * MOST_NODES);
            assert!(names.len() <= MOST_NAMES && root.size() <= MOST_NODES);
            assert!(root.expressions() <= MOST_EXPRESSIONS);
        }
    }

    #[test]
    fn names_have_levels_below_the_number() {
        let mut rng = Rng::new(14);
        let mut seen = [false; 5];
        for _ in 0..200 {
            let script = script(&mut rng, 5, 9);
            assert!(script.names.iter().all(|name| name.level < 5));
            script.names.iter().for_each(|name| seen[name.level] = true);
        }
        assert_eq!(seen, [true; 5]);
    }

    #[test]
    fn other_levels_are_all_and_some_past_the_last() {
        let mut rng = Rng::new(15);
        let mut seen = [false; MOST_LEVELS + 3];
        for _ in 0..400 {
            let script = script(&mut rng, 1, 12);
            let file = file::write(&script, &mut rng);
            let levels = with_other_levels(&mut rng, &file);
            let names = levels.names.iter();
            names.for_each(|name| seen[usize::from(name.level)] = true);
            assert_eq!(levels.nodes, file.nodes);
        }
        assert_eq!(seen, [true; MOST_LEVELS + 3]);
    }
}
