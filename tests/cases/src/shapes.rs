//! Scripts of special shapes: one node, waits, deep chains, the largest file.

use crate::file::{MOST_EXPRESSIONS, MOST_NAMES, MOST_NODES};
use crate::grow::{self, Careless, Style};
use crate::order::Lattice;
use crate::rng::Rng;
use crate::tree::*;

/// The names that the shapes below share: a register and two signals, mostly of one level.
const REGISTER: usize = 0;
const SIGNAL: usize = 1;
const OTHER: usize = 2;

fn three_names(rng: &mut Rng, lattice: &Lattice) -> Vec<Name> {
    let level = rng.below(lattice.count());
    let same = rng.chance(3, 4);
    let mut name = |signal| Name {
        signal,
        level: if same {
            level
        } else {
            rng.below(lattice.count())
        },
    };
    vec![name(false), name(true), name(true)]
}

fn leaf(rng: &mut Rng) -> Process {
    match rng.below(4) {
        0 => Process::Nil,
        1 => Process::Emit(SIGNAL),
        2 => when(OTHER, Process::Emit(SIGNAL)),
        _ => Process::Assign(REGISTER, Expression::Constant(grow::value(rng))),
    }
}

/// A script of one node.
pub fn one_node(rng: &mut Rng, lattice: &Lattice) -> Script {
    let root = match rng.below(3) {
        0 => Process::Nil,
        1 => Process::Emit(SIGNAL),
        _ => Process::Assign(REGISTER, Expression::Constant(grow::value(rng))),
    };
    Script {
        names: three_names(rng, lattice),
        root,
    }
}

/// A small script without loops that waits for session signals, and does nothing but wait in most instants.
pub fn waits(rng: &mut Rng, lattice: &Lattice) -> Script {
    let (first, second) = (leaf(rng), leaf(rng));
    let other = match rng.chance(1, 2) {
        true => when(OTHER, second),
        false => watching(OTHER, when(SIGNAL, second)),
    };
    let root = match rng.below(4) {
        0 => when(SIGNAL, first),
        1 => sequence(when(SIGNAL, first), other),
        2 => parallel(when(SIGNAL, first), other),
        _ => watching(SIGNAL, sequence(first, other)),
    };
    Script {
        names: three_names(rng, lattice),
        root,
    }
}

/// Up to 250 nodes nested in each other, all of one form or of any.
pub fn deep(rng: &mut Rng, lattice: &Lattice) -> Script {
    let mut script = Script {
        names: three_names(rng, lattice),
        root: leaf(rng),
    };
    let mut nodes = script.root.size();
    let one_form = rng.chance(1, 2).then(|| rng.below(WRAPPERS));
    let most = if rng.chance(1, 2) {
        MOST_NODES
    } else {
        rng.between(20, MOST_NODES)
    };
    while nodes + 2 <= most {
        let form = one_form.unwrap_or_else(|| rng.below(WRAPPERS));
        let inner = std::mem::replace(&mut script.root, Process::Nil);
        script.root = wrap(&mut script.names, rng, form, inner);
        // No form adds more than two nodes.
        nodes += 2;
    }
    script
}

const WRAPPERS: usize = 10;

fn wrap(names: &mut Vec<Name>, rng: &mut Rng, form: usize, inner: Process) -> Process {
    let test = Expression::Constant(rng.below(3) as i32);
    match form {
        0 => watching(OTHER, inner),
        1 => when(SIGNAL, inner),
        2 => sequence(inner, Process::Nil),
        3 => sequence(Process::Nil, inner),
        4 => parallel(inner, Process::Emit(SIGNAL)),
        5 => parallel(Process::Nil, inner),
        6 => if_else(test, inner, Process::Nil),
        7 => while_do(test, inner),
        8 if names.len() < MOST_NAMES => let_in(declare(names, false), test, inner),
        9 if names.len() < MOST_NAMES => local(declare(names, true), inner),
        _ => watching(SIGNAL, inner),
    }
}

/// A fresh owned name, at the level of the register.
fn declare(names: &mut Vec<Name>, signal: bool) -> usize {
    names.push(Name {
        signal,
        level: names[REGISTER].level,
    });
    names.len() - 1
}

/// An assignment of an expression up to 256 entries deep.
pub fn deep_expression(rng: &mut Rng, lattice: &Lattice) -> Script {
    let size = if rng.chance(1, 2) {
        MOST_EXPRESSIONS
    } else {
        rng.between(30, MOST_EXPRESSIONS)
    };
    let form = rng.below(4);
    let root = Process::Assign(REGISTER, chain_of_operators(rng, form, size));
    Script {
        names: three_names(rng, lattice),
        root,
    }
}

/// Exactly `size` entries: negations, or operators nested to the left, to the right, or to both.
fn chain_of_operators(rng: &mut Rng, form: usize, size: usize) -> Expression {
    let mut expression = match rng.chance(1, 2) {
        true => Expression::Register(REGISTER),
        false => Expression::Constant(grow::value(rng)),
    };
    let mut left = size.saturating_sub(1);
    while left > 0 {
        let atom = Expression::Constant(grow::value(rng));
        let operator = OPERATORS[rng.below(OPERATORS.len())];
        let to_the_left = form == 1 || (form == 3 && rng.chance(1, 2));
        expression = match (form, left) {
            (0, _) | (_, 1) => not(expression),
            _ if to_the_left => binary(operator, expression, atom),
            _ => binary(operator, atom, expression),
        };
        left -= if form == 0 || left == 1 { 1 } else { 2 };
    }
    expression
}

/// The largest file: 64 names, 256 expressions, 256 nodes; or one short of one of these.
pub fn largest(rng: &mut Rng, lattice: &Lattice, careless: Option<Careless>) -> Script {
    let style = Style {
        nodes: MOST_NODES - 3,
        session_names: rng.between(4, 30),
        mixed: rng.chance(1, 2),
        careless,
    };
    let mut script = grow::script(rng, lattice, style);
    let short = rng.below(8);
    fill_expressions(rng, &mut script, MOST_EXPRESSIONS - usize::from(short == 1));
    fill_nodes(&mut script, MOST_NODES - usize::from(short == 2));
    let level = lattice.bottom;
    let spare = Name {
        signal: rng.chance(1, 2),
        level,
    };
    let names = MOST_NAMES - usize::from(short == 3);
    script.names.resize(names.max(script.names.len()), spare);
    script
}

/// Puts a let of one large expression around the script, if names and nodes allow it.
fn fill_expressions(rng: &mut Rng, script: &mut Script, most: usize) {
    let missing = most.saturating_sub(script.root.expressions());
    let room = script.names.len() + 1 < MOST_NAMES && script.root.size() < MOST_NODES;
    if missing == 0 || !room {
        return;
    }
    let register = script.names.len();
    script.names.push(Name {
        signal: false,
        level: script.names.first().map_or(0, |name| name.level),
    });
    let mut value = Expression::Constant(grow::value(rng));
    for _ in 0..(missing - 1) / 2 {
        let operator = OPERATORS[rng.below(OPERATORS.len())];
        value = binary(operator, value, Expression::Constant(grow::value(rng)));
    }
    if missing.is_multiple_of(2) {
        value = not(value);
    }
    let inner = std::mem::replace(&mut script.root, Process::Nil);
    script.root = let_in(register, value, inner);
}

/// Fills up with `nil` in sequence, and with one local where the number asks for it.
fn fill_nodes(script: &mut Script, most: usize) {
    let mut missing = most.saturating_sub(script.root.size());
    if missing % 2 == 1 && script.names.len() < MOST_NAMES {
        let signal = script.names.len();
        script.names.push(Name {
            signal: true,
            level: 0,
        });
        let inner = std::mem::replace(&mut script.root, Process::Nil);
        script.root = local(signal, inner);
        missing -= 1;
    }
    for _ in 0..missing / 2 {
        let inner = std::mem::replace(&mut script.root, Process::Nil);
        script.root = sequence(inner, Process::Nil);
    }
}
