//! The script as a tree: the report's processes (section 2.1), shared by
//! reference counts, and substitution of names.

use std::rc::Rc;

use crate::book::Level;
use crate::file::File;
use crate::value::Operation;

/// A name: of the file, or fresh.
pub type Name = usize;

#[derive(Debug, PartialEq, Eq, Hash)]
pub enum Expression {
    Constant(i32),
    Register(Name),
    Operation(Operation, Rc<Expression>, Rc<Expression>),
    Not(Rc<Expression>),
}

/// P ::= nil | x := e | let x : δ = e in P | if e then P else Q | while e do P |
/// P ; Q | emit a | local a : δ in P | do P watching a | when a do P | (P ↾ Q)
#[derive(Debug, PartialEq, Eq, Hash)]
pub enum Process {
    Nil,
    Assign(Name, Rc<Expression>),
    Let(Declaration, Rc<Expression>, Rc<Process>),
    If(Rc<Expression>, Rc<Process>, Rc<Process>),
    While(Rc<Expression>, Rc<Process>),
    Sequence(Rc<Process>, Rc<Process>),
    Emit(Name),
    Local(Declaration, Rc<Process>),
    Watching(Rc<Process>, Name),
    When(Name, Rc<Process>),
    Parallel(Rc<Process>, Rc<Process>),
}

/// The name that a let or local binds, and its level: x : δ.
#[derive(Clone, Copy, Debug, PartialEq, Eq, Hash)]
pub struct Declaration {
    pub name: Name,
    pub level: Level,
}

impl Process {
    pub fn is_nil(&self) -> bool {
        matches!(self, Process::Nil)
    }

    /// The tree of node `k` of a checked file.
    pub fn of(file: &File, k: usize) -> Rc<Process> {
        let node = &file.nodes[k];
        let (a, b, c) = (node.a as usize, node.b as usize, node.c as usize);
        let expression = |e| Expression::of(file, e);
        let process = |k| Process::of(file, k);
        Rc::new(match node.kind {
            1 => Process::Assign(a, expression(b)),
            2 => Process::Let(declaration(file, a), expression(b), process(c)),
            3 => Process::If(expression(a), process(b), process(c)),
            4 => Process::While(expression(a), process(b)),
            5 => Process::Sequence(process(a), process(b)),
            6 => Process::Emit(a),
            7 => Process::Local(declaration(file, a), process(b)),
            8 => Process::Watching(process(b), a),
            9 => Process::When(a, process(b)),
            10 => Process::Parallel(process(a), process(b)),
            _ => Process::Nil,
        })
    }

    /// {new/old}P: replaces the free occurrences of `old`. No declaration binds
    /// `new`, which is fresh and not a name of the file, so nothing is captured.
    pub fn substitute(&self, new: Name, old: Name) -> Rc<Process> {
        let name = |n: Name| if n == old { new } else { n };
        let process = |p: &Rc<Process>| p.substitute(new, old);
        let expression = |e: &Rc<Expression>| e.substitute(new, old);
        // A declaration of `old` binds it in its body; no occurrence there is free.
        let body = |d: &Declaration, p: &Rc<Process>| match d.name == old {
            true => Rc::clone(p),
            false => process(p),
        };
        Rc::new(match self {
            Process::Nil => Process::Nil,
            Process::Assign(x, e) => Process::Assign(name(*x), expression(e)),
            Process::Let(d, e, p) => Process::Let(*d, expression(e), body(d, p)),
            Process::If(e, p, q) => Process::If(expression(e), process(p), process(q)),
            Process::While(e, p) => Process::While(expression(e), process(p)),
            Process::Sequence(p, q) => Process::Sequence(process(p), process(q)),
            Process::Emit(a) => Process::Emit(name(*a)),
            Process::Local(d, p) => Process::Local(*d, body(d, p)),
            Process::Watching(p, a) => Process::Watching(process(p), name(*a)),
            Process::When(a, p) => Process::When(name(*a), process(p)),
            Process::Parallel(p, q) => Process::Parallel(process(p), process(q)),
        })
    }
}

fn declaration(file: &File, name: Name) -> Declaration {
    Declaration {
        name,
        level: file.names[name].level as Level,
    }
}

impl Expression {
    /// The tree of expression `e` of a checked file.
    fn of(file: &File, e: usize) -> Rc<Expression> {
        let entry = &file.expressions[e];
        let (a, b) = (entry.a as usize, entry.b() as usize);
        let two = |operation| {
            let (left, right) = (Expression::of(file, a), Expression::of(file, b));
            Expression::Operation(operation, left, right)
        };
        Rc::new(match entry.kind {
            1 => Expression::Register(a),
            2 => two(Operation::Add),
            3 => two(Operation::Subtract),
            4 => two(Operation::Multiply),
            5 => two(Operation::Divide),
            6 => two(Operation::Less),
            7 => two(Operation::Equal),
            8 => Expression::Not(Expression::of(file, a)),
            _ => Expression::Constant(entry.constant()),
        })
    }

    fn substitute(&self, new: Name, old: Name) -> Rc<Expression> {
        let expression = |e: &Rc<Expression>| e.substitute(new, old);
        Rc::new(match self {
            Expression::Constant(value) => Expression::Constant(*value),
            Expression::Register(x) if *x == old => Expression::Register(new),
            Expression::Register(x) => Expression::Register(*x),
            Expression::Operation(operation, a, b) => {
                Expression::Operation(*operation, expression(a), expression(b))
            }
            Expression::Not(a) => Expression::Not(expression(a)),
        })
    }
}
