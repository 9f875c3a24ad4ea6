//! Runs a checked script: each step is a walk from the root.

use super::book::Book;
use super::expression::{value, Expression};
use super::script::{Node, Script};
use super::{Arguments, Pair, Variant};

/// What is left of a node.
#[derive(Clone, Copy, PartialEq)]
pub enum State {
    Whole,
    /// Of a let or a local the body; of a loop the body, and then the loop.
    Body,
    /// Of an if, a sequence or a parallel one part alone.
    First,
    Second,
    /// Of a parallel both parts, the second in front.
    Turned,
    Terminated,
}

/// What a walk finds or does.
pub enum Step {
    Moved,
    /// Nothing is left to move.
    Terminated,
    Suspended,
    /// The next move needs a line and the log has no room.
    Full,
}

pub struct Machine<'a> {
    pub nodes: &'a [Node],
    expressions: &'a [Expression],
    signals: Vec<usize>,
    owned: Vec<usize>,
    seen: Vec<bool>,
    pub state: Vec<State>,
    values: &'a mut [i32],
    /// The pairs of instants that are not yet entered.
    arrivals: &'a [Pair],
    log: &'a mut [u32],
    pub steps: u32,
    instants: u32,
    lines: usize,
}

impl<'a> Machine<'a> {
    pub fn new(
        book: &Book,
        script: &'a Script,
        arrivals: &'a [Pair],
        arguments: Arguments<'a>,
    ) -> Machine<'a> {
        let names = &script.names;
        Machine {
            nodes: &script.nodes,
            expressions: &script.expressions,
            signals: (0..names.len()).filter(|&x| names[x].signal).collect(),
            owned: (0..names.len())
                .filter(|&x| !names[x].is_session())
                .collect(),
            seen: names
                .iter()
                .map(|name| book.at_or_below(name.level, arguments.reader as u8))
                .collect(),
            state: vec![State::Whole; script.nodes.len()],
            values: arguments.values,
            arrivals,
            log: arguments.log,
            steps: 0,
            instants: 0,
            lines: 0,
        }
    }

    /// Number, place, ending, steps, instants, lines.
    pub fn run(mut self, variant: Variant, limit: u32) -> [u32; 6] {
        let ending = match variant {
            Variant::Walking => self.run_by_steps(limit),
            Variant::Resting => self.run_by_rests(limit),
        };
        for &x in &self.owned {
            self.values[x] = 0;
        }
        [0, 0, ending, self.steps, self.instants, self.lines as u32]
    }

    /// The ending of a run.
    fn run_by_steps(&mut self, limit: u32) -> u32 {
        let root = (self.nodes.len() - 1) as u16;
        while self.steps < limit {
            match self.step(root) {
                Step::Terminated => return 0,
                Step::Full => return 2,
                Step::Moved => {}
                Step::Suspended => self.change_instant(root),
            }
            self.steps += 1;
        }
        !self.is_terminated(root) as u32
    }

    pub fn change_instant(&mut self, root: u16) {
        self.change(root);
        self.signals.iter().for_each(|&x| self.values[x] = 0);
        self.instants += 1;
        self.let_arrive();
    }

    /// Makes present what the list names for the instant just entered.
    fn let_arrive(&mut self) {
        while let [[instant, signal], later @ ..] = self.arrivals {
            if *instant != self.instants {
                return;
            }
            self.values[*signal as usize] = 1;
            self.arrivals = later;
        }
    }

    /// Moves node k once, or says why it can't move.
    pub fn step(&mut self, k: u16) -> Step {
        let state = self.state[k as usize];
        if state == State::Terminated {
            return Step::Terminated;
        }
        match (self.nodes[k as usize], state) {
            (Node::Nil, _) => Step::Terminated,
            (Node::Assign { name, value }, _) => {
                self.write(k, name, self.value(value), self.sees(name))
            }
            (Node::Emit { signal }, _) => {
                self.write(k, signal, 1, self.sees(signal) && !self.is_present(signal))
            }
            (Node::Let { name, value, body }, State::Whole) => {
                self.declare(k, name, self.value(value), body)
            }
            (Node::Local { signal, body }, State::Whole) => self.declare(k, signal, 0, body),
            (Node::Let { body, .. } | Node::Local { body, .. }, _) => self.step(body),
            (Node::If { test, then, other }, State::Whole) => self.branch(k, test, then, other),
            (Node::If { then, .. }, State::First) => self.step(then),
            (Node::If { other, .. }, _) => self.step(other),
            (Node::While { test, body }, State::Whole) => self.round(k, test, body),
            (Node::While { body, .. }, _) => self.step_before(k, body, State::Whole),
            (Node::Sequence { first, second }, State::Whole) => {
                let step = self.step(first);
                self.then_enter(k, step, second)
            }
            (Node::Sequence { second, .. }, _) => self.step(second),
            (Node::Watching { body, .. }, _) => self.step_before(k, body, State::Terminated),
            (Node::When { signal, .. }, _) if !self.is_present(signal) => Step::Suspended,
            (Node::When { body, .. }, _) => self.step_before(k, body, State::Terminated),
            (Node::Parallel { first, .. }, State::First) => self.step(first),
            (Node::Parallel { second, .. }, State::Second) => self.step(second),
            (Node::Parallel { first, second }, _) => self.step_beside(k, state, first, second),
        }
    }

    /// An assignment or an emission, which needs a line or none.
    fn write(&mut self, k: u16, name: u16, value: i32, needs_line: bool) -> Step {
        if needs_line {
            let from = 4 * self.lines;
            let Some(line) = self.log.get_mut(from..from + 4) else {
                return Step::Full;
            };
            line.copy_from_slice(&[self.steps + 1, self.instants, name as u32, value as u32]);
            self.lines += 1;
        }
        self.values[name as usize] = value;
        self.leave(k, State::Terminated)
    }

    fn declare(&mut self, k: u16, name: u16, value: i32, body: u16) -> Step {
        self.values[name as usize] = value;
        self.enter(body);
        self.leave(k, State::Body)
    }

    fn branch(&mut self, k: u16, test: u16, then: u16, other: u16) -> Step {
        let (child, state) = if self.value(test) != 0 {
            (then, State::First)
        } else {
            (other, State::Second)
        };
        self.enter(child);
        self.leave(k, state)
    }

    fn round(&mut self, k: u16, test: u16, body: u16) -> Step {
        if self.value(test) == 0 {
            return self.leave(k, State::Terminated);
        }
        self.enter(body);
        self.leave(k, State::Body)
    }

    /// Moves the body of node k; where the body is nil, that is dropped and the node has come to `state`.
    fn step_before(&mut self, k: u16, body: u16, state: State) -> Step {
        match self.step(body) {
            Step::Terminated => self.leave(k, state),
            step => step,
        }
    }

    fn then_enter(&mut self, k: u16, step: Step, second: u16) -> Step {
        match step {
            Step::Terminated => {
                self.enter(second);
                self.leave(k, State::Second)
            }
            step => step,
        }
    }

    fn step_beside(&mut self, k: u16, state: State, first: u16, second: u16) -> Step {
        let (front, rear, alone, turned) = match state {
            State::Whole => (first, second, State::Second, State::Turned),
            _ => (second, first, State::First, State::Whole),
        };
        match self.step(front) {
            Step::Terminated => self.leave(k, alone),
            Step::Suspended if !self.is_suspended(rear) => self.leave(k, turned),
            step => step,
        }
    }

    pub fn leave(&mut self, k: u16, state: State) -> Step {
        self.state[k as usize] = state;
        Step::Moved
    }

    /// Node k begins anew, with all that is in it from the beginning.
    pub fn enter(&mut self, k: u16) {
        self.state[k as usize] = State::Whole;
        match self.nodes[k as usize] {
            Node::Sequence { first, .. } => self.enter(first),
            Node::Watching { body, .. } | Node::When { body, .. } => self.enter(body),
            Node::Parallel { first, second } => {
                self.enter(first);
                self.enter(second);
            }
            _ => {}
        }
    }

    pub fn is_suspended(&self, k: u16) -> bool {
        match (self.nodes[k as usize], self.state[k as usize]) {
            (_, State::Terminated) => false,
            (Node::When { signal, body }, _) => !self.is_present(signal) || self.is_suspended(body),
            (Node::Parallel { first, second }, State::Whole | State::Turned) => {
                self.is_suspended(first) && self.is_suspended(second)
            }
            (node, state) => part(node, state).is_some_and(|child| self.is_suspended(child)),
        }
    }

    /// The instant change of node k, by the signals of the instant that ends.
    fn change(&mut self, k: u16) {
        match (self.nodes[k as usize], self.state[k as usize]) {
            (_, State::Terminated) => {}
            (Node::Watching { signal, .. }, _) if self.is_present(signal) => {
                self.state[k as usize] = State::Terminated;
            }
            (Node::When { signal, .. }, _) if !self.is_present(signal) => {}
            (Node::Parallel { first, second }, State::Whole | State::Turned) => {
                self.change(first);
                self.change(second);
            }
            (node, state) => {
                if let Some(child) = part(node, state) {
                    self.change(child);
                }
            }
        }
    }

    fn is_terminated(&self, k: u16) -> bool {
        match (self.nodes[k as usize], self.state[k as usize]) {
            (Node::Nil, _) | (_, State::Terminated) => true,
            (Node::Watching { .. } | Node::When { .. }, _) => false,
            (Node::While { .. }, _) | (Node::Sequence { .. }, State::Whole) => false,
            (Node::Parallel { .. }, State::Whole | State::Turned) => false,
            (node, state) => part(node, state).is_some_and(|child| self.is_terminated(child)),
        }
    }

    fn sees(&self, name: u16) -> bool {
        self.seen[name as usize]
    }

    pub fn is_present(&self, signal: u16) -> bool {
        self.values[signal as usize] != 0
    }

    fn value(&self, e: u16) -> i32 {
        value(self.expressions, self.values, e)
    }
}

/// The part of a node in front, if it has one; of a parallel only where that part is alone.
fn part(node: Node, state: State) -> Option<u16> {
    match (node, state) {
        (Node::Sequence { first, .. }, State::Whole) => Some(first),
        (Node::Watching { body, .. } | Node::When { body, .. }, _) => Some(body),
        (_, State::Whole) => None,
        (Node::Let { body, .. } | Node::Local { body, .. } | Node::While { body, .. }, _) => {
            Some(body)
        }
        (Node::If { then, .. }, State::First) => Some(then),
        (Node::If { other, .. }, _) => Some(other),
        (Node::Sequence { second, .. }, _) => Some(second),
        (Node::Parallel { first, .. }, State::First) => Some(first),
        (Node::Parallel { second, .. }, _) => Some(second),
        _ => None,
    }
}
