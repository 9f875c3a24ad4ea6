//! Small programs that let a reader see what is sealed, by breaking one rule and no other. The checker must
//! refuse each of them; a checker without the rule would accept it, and a run would show the difference.

use super::patterns::COUNT_DOWN;
use super::{Bounds, Grower, Rule};
use crate::tree::*;

/// The nodes of a leak by a rule, of a signal or of a register.
fn leak_nodes(rule: Rule, sealed_signal: bool) -> usize {
    match rule {
        Rule::Name | Rule::If => 3,
        Rule::When => 2,
        Rule::Let => 4,
        Rule::Watching => 10,
        Rule::While => 11,
        Rule::Sequence => 7,
        Rule::Parallel if sealed_signal => 20,
        Rule::Parallel => 15,
    }
}

impl Grower<'_> {
    /// In a careless script, now and then, a leak by its rule.
    pub fn leak(&mut self, bounds: Bounds, size: usize) -> Option<Process> {
        let careless = self.careless?;
        let sealed_signal = match careless.rule {
            Rule::When | Rule::Watching => true,
            Rule::While | Rule::Sequence | Rule::Parallel => self.rng.chance(1, 2),
            _ => false,
        };
        if size < leak_nodes(careless.rule, sealed_signal) || self.rng.chance(2, 3) {
            return None;
        }
        let signal = self.rng.chance(1, 2);
        let low = self.name(signal, |lattice, level| {
            lattice.at_most(bounds.write, level)
        })?;
        let low_level = self.names[low].level;
        let sealed = self.name(sealed_signal, |lattice, level| {
            lattice.at_most(level, bounds.test) && !lattice.at_most(level, low_level)
        })?;
        self.take(COUNT_DOWN + 2);
        self.leak_by(careless.rule, low, sealed)
    }

    fn leak_by(&mut self, rule: Rule, low: usize, sealed: usize) -> Option<Process> {
        let low_level = self.names[low].level;
        let write = self.write_to(low);
        let secret = Expression::Register(sealed);
        Some(match rule {
            Rule::Name if self.names[low].signal => if_else(secret, write, Process::Nil),
            Rule::Name if self.rng.chance(1, 2) => Process::Assign(low, secret),
            // A rule of its own says that the second operand counts.
            Rule::Name => Process::Assign(low, binary(ADD, Expression::Constant(1), secret)),
            Rule::Let => {
                let register = self.declare(false, low_level)?;
                self.scope.pop();
                let shown = if_else(Expression::Register(register), write, Process::Nil);
                let_in(register, secret, shown)
            }
            Rule::If => if_else(secret, write, Process::Nil),
            Rule::When => when(sealed, write),
            Rule::Watching => watching(sealed, sequence(self.pause_at(low_level)?, write)),
            Rule::While => {
                let counter = self.declare(false, low_level)?;
                self.scope.pop();
                let delay = self.delay(sealed);
                self.count_down(counter, 2, true, sequence(write, delay))
            }
            Rule::Sequence => sequence(self.delay(sealed), write),
            Rule::Parallel => {
                let mut later = sequence(self.pause_at(low_level)?, write);
                // A list makes a signal present in instant 1 at the earliest.
                if self.names[sealed].signal {
                    later = sequence(self.pause_at(low_level)?, later);
                }
                parallel(later, self.delay(sealed))
            }
        })
    }

    fn write_to(&mut self, name: usize) -> Process {
        match self.names[name].signal {
            true => Process::Emit(name),
            false => Process::Assign(name, self.expression(self.names[name].level)),
        }
    }

    /// Takes one step more or less by the value of a register, or waits for a signal.
    fn delay(&self, name: usize) -> Process {
        if self.names[name].signal {
            return when(name, Process::Nil);
        }
        let longer = sequence(Process::Nil, Process::Nil);
        if_else(Expression::Register(name), longer, Process::Nil)
    }
}
