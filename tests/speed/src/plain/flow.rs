//! Write level, test level and refusal 11. Children have smaller numbers, so one pass over the lists is enough.

use super::book::Book;
use super::expression::Expression;
use super::script::{Node, Script};
use super::{refusal, Refusal};

#[derive(Clone, Copy)]
pub struct Levels {
    pub write: u8,
    pub test: u8,
}

struct Pass<'a> {
    book: &'a Book,
    script: &'a Script,
    expressions: Vec<u8>,
    nodes: Vec<Levels>,
}

/// The levels of the script, or the first node whose need fails.
pub fn levels(book: &Book, script: &Script) -> Result<Levels, Refusal> {
    let mut pass = Pass {
        book,
        script,
        expressions: expression_levels(book, script),
        nodes: Vec::with_capacity(script.nodes.len()),
    };
    for (k, node) in script.nodes.iter().enumerate() {
        let (levels, holds) = pass.node(node);
        if !holds {
            return Err(refusal(11, k));
        }
        pass.nodes.push(levels);
    }
    Ok(pass.nodes[script.root()])
}

fn expression_levels(book: &Book, script: &Script) -> Vec<u8> {
    let mut levels: Vec<u8> = Vec::with_capacity(script.expressions.len());
    for expression in &script.expressions {
        let level = match *expression {
            Expression::Constant(_) => book.bottom,
            Expression::Register(x) => script.names[x as usize].level,
            Expression::Not(a) => levels[a as usize],
            Expression::Binary(_, a, b) => book.join(levels[a as usize], levels[b as usize]),
        };
        levels.push(level);
    }
    levels
}

impl Pass<'_> {
    fn name(&self, x: u16) -> u8 {
        self.script.names[x as usize].level
    }

    fn expression(&self, e: u16) -> u8 {
        self.expressions[e as usize]
    }

    fn child(&self, k: u16) -> Levels {
        self.nodes[k as usize]
    }

    fn both(&self, a: Levels, b: Levels) -> Levels {
        Levels {
            write: self.book.meet(a.write, b.write),
            test: self.book.join(a.test, b.test),
        }
    }

    fn tested(&self, levels: Levels, level: u8) -> Levels {
        let test = self.book.join(levels.test, level);
        Levels { test, ..levels }
    }

    fn writes(&self, x: u16) -> Levels {
        let (write, test) = (self.name(x), self.book.bottom);
        Levels { write, test }
    }

    /// The levels of a node, and whether its own need holds.
    fn node(&self, node: &Node) -> (Levels, bool) {
        let book = self.book;
        let nil = Levels {
            write: book.top,
            test: book.bottom,
        };
        match *node {
            Node::Nil => (nil, true),
            Node::Emit { signal } => (self.writes(signal), true),
            Node::Assign { name, value } => {
                let holds = book.at_or_below(self.expression(value), self.name(name));
                (self.writes(name), holds)
            }
            Node::Let { name, value, body } => {
                let holds = book.at_or_below(self.expression(value), self.name(name));
                (self.child(body), holds)
            }
            Node::Local { body, .. } => (self.child(body), true),
            Node::If { test, then, other } => self.guarded(
                self.expression(test),
                self.both(self.child(then), self.child(other)),
            ),
            Node::Watching { signal, body } | Node::When { signal, body } => {
                self.guarded(self.name(signal), self.child(body))
            }
            Node::While { test, body } => {
                let levels = self.tested(self.child(body), self.expression(test));
                (levels, book.at_or_below(levels.test, levels.write))
            }
            Node::Sequence { first, second } => {
                let (a, b) = (self.child(first), self.child(second));
                (self.both(a, b), book.at_or_below(a.test, b.write))
            }
            Node::Parallel { first, second } => {
                let (a, b) = (self.child(first), self.child(second));
                let holds = book.at_or_below(a.test, b.write) && book.at_or_below(b.test, a.write);
                (self.both(a, b), holds)
            }
        }
    }

    fn guarded(&self, level: u8, body: Levels) -> (Levels, bool) {
        (
            self.tested(body, level),
            self.book.at_or_below(level, body.write),
        )
    }
}
