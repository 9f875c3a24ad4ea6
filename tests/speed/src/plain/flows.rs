//! The flows that a script needs, on sets of levels: bit i is level i. Each node joins what its parts test and write.

use super::book::MAX_LEVELS;
use super::expression::Expression;
use super::script::{Node, Script};

/// For each level the set of those to which data must be let flow.
pub type Flows = [u32; MAX_LEVELS];

/// The levels that a part of the script tests, and those that it writes.
#[derive(Clone, Copy, Default)]
struct Sets {
    tested: u32,
    written: u32,
}

struct Walk<'a> {
    script: &'a Script,
    flows: Flows,
}

pub fn flows(script: &Script) -> Flows {
    let flows = [0; MAX_LEVELS];
    let mut walk = Walk { script, flows };
    walk.node(script.root());
    for (i, set) in walk.flows.iter_mut().enumerate() {
        *set &= !(1 << i);
    }
    walk.flows
}

fn both(a: Sets, b: Sets) -> Sets {
    Sets {
        tested: a.tested | b.tested,
        written: a.written | b.written,
    }
}

impl Walk<'_> {
    fn name(&self, x: u16) -> u32 {
        1 << self.script.names[x as usize].level
    }

    fn expression(&self, e: u16) -> u32 {
        match self.script.expressions[e as usize] {
            Expression::Constant(_) => 0,
            Expression::Register(x) => self.name(x),
            Expression::Not(a) => self.expression(a),
            Expression::Binary(_, a, b) => self.expression(a) | self.expression(b),
        }
    }

    /// From each level of a set to all of the other.
    fn need(&mut self, from: u32, to: u32) {
        let mut left = from;
        while left != 0 {
            self.flows[left.trailing_zeros() as usize] |= to;
            left &= left - 1;
        }
    }

    fn node(&mut self, k: usize) -> Sets {
        match self.script.nodes[k] {
            Node::Nil => Sets::default(),
            Node::Emit { signal } => self.writes(signal),
            Node::Assign { name, value } => {
                self.need(self.expression(value), self.name(name));
                self.writes(name)
            }
            Node::Let { name, value, body } => {
                self.need(self.expression(value), self.name(name));
                self.child(body)
            }
            Node::Local { body, .. } => self.child(body),
            Node::If { test, then, other } => {
                let branches = both(self.child(then), self.child(other));
                self.guarded(self.expression(test), branches)
            }
            Node::Watching { signal, body } | Node::When { signal, body } => {
                let body = self.child(body);
                self.guarded(self.name(signal), body)
            }
            Node::While { test, body } => {
                let body = self.child(body);
                self.need(body.tested, body.written);
                self.guarded(self.expression(test), body)
            }
            Node::Sequence { first, second } => {
                let (a, b) = (self.child(first), self.child(second));
                self.need(a.tested, b.written);
                both(a, b)
            }
            Node::Parallel { first, second } => {
                let (a, b) = (self.child(first), self.child(second));
                self.need(a.tested, b.written);
                self.need(b.tested, a.written);
                both(a, b)
            }
        }
    }

    fn child(&mut self, k: u16) -> Sets {
        self.node(k as usize)
    }

    fn writes(&self, x: u16) -> Sets {
        Sets {
            tested: 0,
            written: self.name(x),
        }
    }

    fn guarded(&mut self, test: u32, body: Sets) -> Sets {
        self.need(test, body.written);
        let tested = body.tested | test;
        Sets { tested, ..body }
    }
}
