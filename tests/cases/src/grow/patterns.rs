//! Small programs of several nodes: loops that end, pauses, threads that wait for each other, bodies that
//! are cut off half-way.

use super::{Bounds, Grower, Rule};
use crate::tree::*;

/// The most expressions that counting down takes.
pub const COUNT_DOWN: usize = 7;

impl Grower<'_> {
    /// A loop that counts down from a small number; six nodes or more.
    pub fn counted_loop(&mut self, bounds: Bounds, size: usize) -> Process {
        let Some(level) = self.middle(bounds) else {
            return self.any_loop(bounds, size);
        };
        let Some(counter) = self.declare(false, level) else {
            return self.any_loop(bounds, size);
        };
        self.take(COUNT_DOWN);
        let rounds = self.rng.between(1, 5);
        let mut within = Bounds::exactly(level);
        let loose = self.breaks(Rule::While);
        if loose {
            within.test = bounds.test;
        }
        // The body sees the counter only sometimes, so that most loops end.
        let hidden = self.rng.chance(5, 6);
        if hidden {
            self.scope.pop();
        }
        let body = self.loop_body(within, size - 4);
        if !hidden {
            self.scope.pop();
        }
        let count_first = loose || self.rng.chance(1, 2);
        self.count_down(counter, rounds, count_first, body)
    }

    /// `let c = rounds in while c do (body; c := c - 1)`, or with the count before the body.
    pub fn count_down(
        &mut self,
        counter: usize,
        rounds: usize,
        first: bool,
        body: Process,
    ) -> Process {
        let less = binary(
            SUBTRACT,
            Expression::Register(counter),
            Expression::Constant(1),
        );
        let count = Process::Assign(counter, less);
        let round = if first {
            sequence(count, body)
        } else {
            sequence(body, count)
        };
        let test = match self.rng.below(3) {
            0 => binary(LESS, Expression::Constant(0), Expression::Register(counter)),
            _ => Expression::Register(counter),
        };
        let_in(
            counter,
            Expression::Constant(rounds as i32),
            while_do(test, round),
        )
    }

    /// Bodies that are left half-way and entered again.
    fn loop_body(&mut self, bounds: Bounds, size: usize) -> Process {
        match self.rng.below(8) {
            0 if size >= 7 => self.cut_off(bounds, size),
            1..=3 if size >= 7 => self.handshake(bounds, size),
            4 if size >= 9 => self.pause_then(bounds, size),
            5 if size >= 3 => self.in_parallel(bounds, size),
            6 if size >= 3 => self.in_sequence(bounds, size),
            7 if size >= 4 => self.renews(bounds, size),
            _ => self.process(bounds, size),
        }
    }

    /// The report's `pause` with fresh signals of a level; seven nodes.
    pub fn pause_at(&mut self, level: usize) -> Option<Process> {
        let (never, now) = self.two_signals(level)?;
        Some(local(never, local(now, pause(never, now))))
    }

    /// The report's `pause` with fresh signals, and a process after it; nine nodes or more.
    pub fn pause_then(&mut self, bounds: Bounds, size: usize) -> Process {
        // The lowest level leaves what follows the most freedom.
        let lowest = self.rng.chance(2, 3);
        let Some(level) = self
            .middle(bounds)
            .map(|level| if lowest { bounds.write } else { level })
        else {
            return self.in_sequence(bounds, size);
        };
        let Some((never, now)) = self.two_signals(level) else {
            return self.in_sequence(bounds, size);
        };
        let after = self.writes_at_least(bounds, level);
        let rest = self.process(after, size.saturating_sub(8));
        match self.rng.chance(1, 2) {
            true => sequence(local(never, local(now, pause(never, now))), rest),
            false => local(now, local(never, sequence(pause(never, now), rest))),
        }
    }

    /// One thread waits for a local signal, the other emits it; seven nodes or more.
    pub fn handshake(&mut self, bounds: Bounds, size: usize) -> Process {
        let Some(level) = self.middle(bounds) else {
            return self.in_parallel(bounds, size);
        };
        let Some(signal) = self.declare(true, level) else {
            return self.in_parallel(bounds, size);
        };
        let within = Bounds::exactly(level);
        let (first, second) = self.split(size - 4);
        let waiter = when(signal, self.process(within, first));
        let sender = sequence(self.process(within, second), Process::Emit(signal));
        self.scope.pop();
        let threads = match self.rng.chance(2, 3) {
            true => parallel(waiter, sender),
            false => parallel(sender, waiter),
        };
        local(signal, threads)
    }

    /// `emit b; do (P; when a do Q) watching b`, or with P beside the when: what still waits for a at the
    /// end of the instant is cut off. Seven nodes or more.
    pub fn cut_off(&mut self, bounds: Bounds, size: usize) -> Process {
        let Some(level) = self.middle(bounds) else {
            return self.in_sequence(bounds, size);
        };
        let signal = |grower: &mut Grower| grower.name(true, |_, other| other == level);
        let (Some(kill), Some(never)) = (signal(self), signal(self)) else {
            return self.handshake(bounds, size);
        };
        let (first, second) = self.split(size - 4);
        let body = match self.rng.chance(1, 2) {
            true => {
                let (before, after) = self.before_and_after(Bounds {
                    write: level,
                    ..bounds
                });
                let after = self.writes_at_least(after, level);
                sequence(
                    self.process(before, first),
                    when(never, self.process(after, second)),
                )
            }
            false => {
                let within = Bounds::exactly(level);
                parallel(
                    when(never, self.process(within, second)),
                    self.process(within, first),
                )
            }
        };
        sequence(Process::Emit(kill), watching(kill, body))
    }

    /// `(when a do do P watching b) || (emit b; pause; emit a; Q)`: the when keeps an instant change from its
    /// body, until a later instant. Twenty nodes or more.
    pub fn held_back(&mut self, bounds: Bounds, size: usize) -> Process {
        let Some(level) = self.middle(bounds) else {
            return self.in_parallel(bounds, size);
        };
        let (Some((a, b)), Some(pause)) = (self.two_signals(level), self.pause_at(level)) else {
            return self.in_parallel(bounds, size);
        };
        let within = Bounds::exactly(level);
        let (first, second) = self.split(size - 17);
        let waits = when(a, watching(b, when(a, self.process(within, first))));
        let later = sequence(
            pause,
            sequence(Process::Emit(a), self.process(within, second)),
        );
        let sends = sequence(Process::Emit(b), later);
        let threads = match self.rng.chance(1, 2) {
            true => parallel(waits, sends),
            false => parallel(sends, waits),
        };
        local(a, local(b, threads))
    }

    /// `(when s do nil); P` or `(do (when r do nil) watching s); P`, with session signals: P goes on when
    /// the list or another thread makes s present. Five nodes or more.
    pub fn awaiting(&mut self, bounds: Bounds, size: usize) -> Process {
        let signals = (self.session_signal(bounds), self.session_signal(bounds));
        let (Some(s), Some(r)) = signals else {
            return self.in_sequence(bounds, size);
        };
        let after = self.writes_at_least(bounds, self.names[s].level);
        if self.rng.chance(2, 3) {
            let rest = self.process(after, size - 3);
            return sequence(when(s, Process::Nil), rest);
        }
        let after = self.writes_at_least(after, self.names[r].level);
        let rest = self.process(after, size - 4);
        sequence(watching(s, when(r, Process::Nil)), rest)
    }

    /// Processes one after the other, each of which waits for a session signal first.
    pub fn in_stages(&mut self, bounds: Bounds, size: usize) -> Process {
        let (first, second) = (size / 2, size - size / 2 - 1);
        if first < 5 || self.rng.chance(1, 3) {
            return self.process_in_stage(bounds, size);
        }
        let (before, after) = self.before_and_after(bounds);
        let stage = self.process_in_stage(before, first);
        sequence(stage, self.in_stages(after, second))
    }

    fn process_in_stage(&mut self, bounds: Bounds, size: usize) -> Process {
        match size < 5 {
            true => self.process(bounds, size),
            false => self.awaiting(bounds, size),
        }
    }

    /// First a process that tests nothing sealed, then one that writes nothing below some level and may test
    /// anything.
    pub fn in_two_phases(&mut self, bounds: Bounds, size: usize) -> Process {
        let level = self.some_level();
        let before = self.tests_at_most(bounds, self.lattice.bottom);
        let after = self.writes_at_least(bounds, level);
        let first = self.process(before, size / 3);
        sequence(first, self.process(after, size - size / 3 - 1))
    }

    /// A process beside a thread that emits signals in each of a few instants, so that what waits goes
    /// on. The thread has 14 nodes or 16.
    pub fn with_clock(&mut self, bounds: Bounds, size: usize) -> Process {
        let signal = |grower: &mut Grower, level| grower.name(true, |_, other| other == level);
        let Some(level) = self.middle(bounds) else {
            return self.process(bounds, size);
        };
        let (Some(tick), Some(tock), true) = (signal(self, level), signal(self, level), size > 20)
        else {
            return self.process(bounds, size);
        };
        let (Some((never, now)), Some(counter)) =
            (self.two_signals(level), self.declare(false, level))
        else {
            return self.process(bounds, size);
        };
        self.scope.pop();
        let emits = match self.rng.chance(1, 2) {
            true => Process::Emit(tick),
            false => sequence(Process::Emit(tick), Process::Emit(tock)),
        };
        self.take(COUNT_DOWN);
        let rounds = self.rng.between(2, 6);
        let clock = self.count_down(counter, rounds, true, sequence(emits, pause(never, now)));
        let clock = local(never, local(now, clock));
        let process = self.process(Bounds::exactly(level), size - 17);
        match self.rng.chance(1, 2) {
            true => parallel(process, clock),
            false => parallel(clock, process),
        }
    }
}

/// `emit now; do (when never do nil) watching now`: waits for the next instant.
fn pause(never: usize, now: usize) -> Process {
    sequence(Process::Emit(now), watching(now, when(never, Process::Nil)))
}
