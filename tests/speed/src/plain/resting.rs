//! The cleverer variant: a node is run as far as it goes within the instant, so that no step walks from the root.

use super::machine::{Machine, State, Step};
use super::script::Node;

/// Why a node makes no further move.
enum Rest {
    Terminated,
    Suspended,
    Spent,
    Full,
}

/// What is next of a node.
enum Next {
    /// Nothing is around this part: it is all that is left.
    Alone(u16),
    /// This part; when it is nil, it is dropped and the node comes to this state.
    Part(u16, State),
    OwnMove,
    Rest(Rest),
}

impl Machine<'_> {
    /// The ending of a run.
    pub fn run_by_rests(&mut self, limit: u32) -> u32 {
        let root = (self.nodes.len() - 1) as u16;
        loop {
            match self.advance(root, limit) {
                Rest::Terminated => return 0,
                Rest::Full => return 2,
                Rest::Suspended if self.steps < limit => self.change_instant(root),
                _ => return 1,
            }
            self.steps += 1;
        }
    }

    fn advance(&mut self, k: u16, limit: u32) -> Rest {
        loop {
            let moved = match self.next(k) {
                Next::Rest(rest) => return rest,
                Next::Alone(child) => return self.advance(child, limit),
                Next::OwnMove if self.steps == limit => return Rest::Spent,
                Next::OwnMove => self.step(k),
                Next::Part(child, after) => match self.advance(child, limit) {
                    Rest::Suspended if self.rear_waits(k) => return Rest::Suspended,
                    Rest::Suspended | Rest::Terminated if self.steps == limit => {
                        return Rest::Spent
                    }
                    Rest::Suspended => self.trade(k),
                    Rest::Terminated => self.drop_part(k, after),
                    rest => return rest,
                },
            };
            if matches!(moved, Step::Full) {
                return Rest::Full;
            }
            self.steps += 1;
        }
    }

    fn next(&self, k: u16) -> Next {
        match (self.nodes[k as usize], self.state[k as usize]) {
            (Node::Nil, _) | (_, State::Terminated) => Next::Rest(Rest::Terminated),
            (Node::When { signal, .. }, _) if !self.is_present(signal) => {
                Next::Rest(Rest::Suspended)
            }
            (Node::Watching { body, .. } | Node::When { body, .. }, _) => {
                Next::Part(body, State::Terminated)
            }
            (Node::Sequence { first, .. }, State::Whole) => Next::Part(first, State::Second),
            (Node::Parallel { first, .. }, State::Whole) => Next::Part(first, State::Second),
            (Node::Parallel { second, .. }, State::Turned) => Next::Part(second, State::First),
            (_, State::Whole) => Next::OwnMove,
            (Node::While { body, .. }, _) => Next::Part(body, State::Whole),
            (Node::Let { body, .. } | Node::Local { body, .. }, _) => Next::Alone(body),
            (Node::If { then: first, .. } | Node::Parallel { first, .. }, State::First) => {
                Next::Alone(first)
            }
            (Node::If { other: second, .. }, _) => Next::Alone(second),
            (Node::Sequence { second, .. } | Node::Parallel { second, .. }, _) => {
                Next::Alone(second)
            }
            (Node::Assign { .. } | Node::Emit { .. }, _) => Next::OwnMove,
        }
    }

    fn rear_waits(&self, k: u16) -> bool {
        match (self.nodes[k as usize], self.state[k as usize]) {
            (Node::Parallel { second, .. }, State::Whole) => self.is_suspended(second),
            (Node::Parallel { first, .. }, State::Turned) => self.is_suspended(first),
            _ => true,
        }
    }

    fn trade(&mut self, k: u16) -> Step {
        match self.state[k as usize] {
            State::Whole => self.leave(k, State::Turned),
            _ => self.leave(k, State::Whole),
        }
    }

    fn drop_part(&mut self, k: u16, after: State) -> Step {
        if let Node::Sequence { second, .. } = self.nodes[k as usize] {
            self.enter(second);
        }
        self.leave(k, after)
    }
}
