//! Emissions that need their rule: of a signal that another emission, the list or the start has made present,
//! and of a signal that an earlier instant had.

use super::{Bounds, Grower, Rule};
use crate::tree::*;

impl Grower<'_> {
    /// Two emissions of one signal around a process, in one thread or in two. The second one finds the signal
    /// present, unless the instant changes between them. Five nodes or more.
    pub fn emits_twice(&mut self, bounds: Bounds, size: usize) -> Process {
        let write = bounds.write;
        let Some(signal) = self.name(true, |lattice, level| lattice.at_most(write, level)) else {
            return self.in_sequence(bounds, size);
        };
        let emits = || Process::Emit(signal);
        let between = self.tests_at_most(bounds, self.names[signal].level);
        let process = self.process(between, size - 4);
        match self.rng.below(4) {
            0 => parallel(emits(), sequence(process, emits())),
            1 => parallel(sequence(process, emits()), emits()),
            _ => sequence(emits(), sequence(process, emits())),
        }
    }

    /// `emit s; (pause; (emit s; P))`: an emission in each of two instants. Thirteen nodes or more.
    pub fn emits_again(&mut self, bounds: Bounds, size: usize) -> Process {
        let Some(level) = self.middle(bounds) else {
            return self.in_sequence(bounds, size);
        };
        let signal = self.name(true, |lattice, other| lattice.at_most(level, other));
        let (Some(signal), Some(pause)) = (signal, self.pause_at(level)) else {
            return self.in_sequence(bounds, size);
        };
        let after = self.writes_at_least(bounds, level);
        let again = sequence(Process::Emit(signal), self.process(after, size - 12));
        sequence(Process::Emit(signal), sequence(pause, again))
    }

    /// `when s do (emit s; P)` with a session signal: the emission finds present what the list, the start or
    /// another thread has made so. Four nodes or more.
    pub fn answers(&mut self, bounds: Bounds, size: usize) -> Process {
        let signal = self.session_signal(bounds);
        let written = |&name: &usize| self.lattice.at_most(bounds.write, self.names[name].level);
        let Some(signal) = signal.filter(written) else {
            return self.in_sequence(bounds, size);
        };
        let body = self.guarded(Rule::When, bounds, self.names[signal].level);
        let rest = self.process(body, size - 3);
        when(signal, sequence(Process::Emit(signal), rest))
    }

    /// `local s in (emit s; P)`: in a loop each round makes s absent before it is emitted. Four nodes or more.
    pub fn renews(&mut self, bounds: Bounds, size: usize) -> Process {
        let level = self.middle(bounds).unwrap_or(bounds.write);
        let Some(signal) = self.declare(true, level) else {
            return self.in_sequence(bounds, size);
        };
        let rest = self.process(bounds, size - 3);
        self.scope.pop();
        local(signal, sequence(Process::Emit(signal), rest))
    }
}
