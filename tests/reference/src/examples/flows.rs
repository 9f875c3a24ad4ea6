//! Which pairs of levels scripts would need: small programs for single sentences of
//! 02 (e), worked out by hand. A number after a name is its level. Under the book of
//! all levels, each above the one before, a pair is absent exactly when it falls; W is
//! the least level that is written, T the greatest that is tested.

use super::script::*;
use super::{every_level, Example};
use crate::order::MOST_LEVELS;

const NAMES: &str = "02 (e), 'each register level of an assigned or let expression'";
const NEEDS: &str = "02 (e), 'wherever a node's need joins them'";

/// The last level, top of the book.
pub const LAST: usize = MOST_LEVELS - 1;
pub const TOP: u32 = LAST as u32;

pub fn all() -> Vec<Example> {
    let groups = [
        expressions(),
        lets(),
        tests_that_choose(),
        tests_that_guard(),
        loops(),
        sequences(),
        nested_sequences(),
        parallels(),
        nested_tests(),
        no_tests(),
    ];
    groups.into_iter().flatten().collect()
}

pub fn needs(name: &'static str, place: &'static str, names: Names, process: Process) -> Example {
    Example::bytes(name, place, &every_level(), file(names, &process))
}

/// Registers of these levels, numbered from 0.
pub fn registers<const N: usize>(levels: [u8; N]) -> (Names, [Name; N]) {
    let mut n = Names::new();
    let registers = levels.map(|level| n.register(level));
    (n, registers)
}

/// Signals of these levels, numbered from 0.
pub fn signals<const N: usize>(levels: [u8; N]) -> (Names, [Name; N]) {
    let mut n = Names::new();
    let signals = levels.map(|level| n.signal(level));
    (n, signals)
}

/// x := 0
pub fn clear(x: Name) -> Process {
    assign(x, constant(0))
}

/// if x then nil else nil
fn looks_at(x: Name) -> Process {
    if_else(read(x), nil(), nil())
}

/// when a do nil
pub fn waits_for(a: Name) -> Process {
    when(a, nil())
}

/// Every register of the expression counts, at any depth; a level is not 'other'
/// than itself; an assignment tests nothing.
fn expressions() -> Vec<Example> {
    let (n, [x, y, z, w]) = registers([3, 5, 2, 4]);
    let (m, [low, high]) = registers([2, 7]);
    let deep = subtract(read(x), multiply(read(z), not(read(w))));
    vec![
        needs("y5 := x3", NAMES, n.clone(), assign(y, read(x)))
            .accepted(5, 0)
            .moves(1)
            .flows(&[(3, 5)]),
        needs("y5 := x3 - z2 * not w4", NAMES, n.clone(), assign(y, deep))
            .accepted(5, 0)
            .moves(1)
            .flows(&[(2, 5), (3, 5), (4, 5)]),
        needs("y5 := y5", NAMES, n.clone(), assign(y, read(y)))
            .accepted(5, 0)
            .moves(1)
            .flows(&[]),
        needs("y5 := 0", NAMES, n, clear(y))
            .accepted(5, 0)
            .moves(1)
            .flows(&[]),
        needs("y2 := x7", NAMES, m, assign(low, read(high)))
            .refused(11, 0)
            .flows(&[(7, 2)]),
    ]
}

/// x4 to u6 by the let; u6 and z8 to y9 by the assignment, and not x4 to y9.
fn lets() -> Vec<Example> {
    let (n, [x, u, y, z]) = registers([4, 6, 9, 8]);
    let sum = assign(y, add(read(u), read(z)));
    vec![
        needs(
            "let u6 = x4 in nil",
            NAMES,
            n.clone(),
            let_in(u, read(x), nil()),
        )
        .accepted(TOP, 0)
        .moves(1)
        .flows(&[(4, 6)]),
        needs(
            "let u6 = x4 in y9 := u6 + z8",
            NAMES,
            n,
            let_in(u, read(x), sum),
        )
        .accepted(9, 0)
        .moves(2)
        .flows(&[(4, 6), (6, 9), (8, 9)]),
    ]
}

/// If: the tested levels to what the branches write.
fn tests_that_choose() -> Vec<Example> {
    let mut n = Names::new();
    let (x, z, y, b) = (n.register(2), n.register(4), n.register(6), n.signal(5));
    let choice = if_else(less(read(x), read(z)), clear(y), emit(b));
    vec![
        needs(
            "if x2 < z4 then y6 := 0 else emit b5",
            NEEDS,
            n.clone(),
            choice,
        )
        .accepted(5, 4)
        .moves(3)
        .flows(&[(2, 5), (2, 6), (4, 5), (4, 6)]),
        needs("if x2 then nil else nil", NEEDS, n, looks_at(x))
            .accepted(TOP, 2)
            .moves(1)
            .flows(&[]),
    ]
}

/// When and watching: the tested levels to what the body writes. In the last, x2 goes
/// to y7 by the assignment, a3 and then c4 to both b8 and y7.
fn tests_that_guard() -> Vec<Example> {
    let (m, [a, c, d]) = signals([3, 4, 1]);
    let mut l = m.clone();
    let (w, s, y7) = (l.register(2), l.signal(8), l.register(7));
    let body = par(emit(s), assign(y7, read(w)));
    vec![
        needs("emit a3", NEEDS, m.clone(), emit(a))
            .accepted(3, 0)
            .moves(1)
            .flows(&[]),
        needs("when a3 do emit c4", NEEDS, m.clone(), when(a, emit(c)))
            .accepted(4, 3)
            .moves(2)
            .flows(&[(3, 4)]),
        needs("do emit d1 watching a3", NEEDS, m, watching(emit(d), a))
            .refused(11, 1)
            .flows(&[(3, 1)]),
        needs(
            "do (when a3 do (emit b8 parallel y7 := x2)) watching c4",
            NEEDS,
            l,
            watching(when(a, body), c),
        )
        .accepted(7, 4)
        .moves(10)
        .flows(&[(2, 7), (3, 7), (3, 8), (4, 7), (4, 8)]),
    ]
}

/// All that the body tests goes to all that it writes, also backward: a round may
/// follow. In the second, the inner loop joins z2 and a4 with v6 alone, the outer
/// one x1, z2 and a4 with y5 and v6.
fn loops() -> Vec<Example> {
    let mut n = Names::new();
    let (x, z, y) = (n.register(1), n.register(2), n.register(3));
    let body = seq(clear(y), looks_at(z));
    let mut m = Names::new();
    let (x1, z2, a4) = (m.register(1), m.register(2), m.signal(4));
    let (y5, v6) = (m.register(5), m.register(6));
    let inner = while_do(read(z2), seq(clear(v6), waits_for(a4)));
    let outer = while_do(read(x1), seq(clear(y5), inner));
    vec![
        needs(
            "while x1 do (y3 := 0; (if z2 then nil else nil))",
            NEEDS,
            n.clone(),
            while_do(read(x), body),
        )
        .accepted(3, 2)
        .flows(&[(1, 3), (2, 3)]),
        needs(
            "while x1 do (y5 := 0; (while z2 do (v6 := 0; (when a4 do nil))))",
            NEEDS,
            m,
            outer,
        )
        .accepted(5, 4)
        .flows(&[(1, 5), (1, 6), (2, 5), (2, 6), (4, 5), (4, 6)]),
        needs("while x1 do nil", NEEDS, n, while_do(read(x), nil()))
            .accepted(TOP, 1)
            .flows(&[]),
    ]
}

/// What the first part tests to what the second writes, and not backward.
fn sequences() -> Vec<Example> {
    let mut n = Names::new();
    let (x, b) = (n.register(3), n.signal(8));
    vec![
        needs(
            "(if x3 then nil else nil); emit b8",
            NEEDS,
            n.clone(),
            seq(looks_at(x), emit(b)),
        )
        .accepted(8, 3)
        .moves(3)
        .flows(&[(3, 8)]),
        needs(
            "emit b8; (if x3 then nil else nil)",
            NEEDS,
            n,
            seq(emit(b), looks_at(x)),
        )
        .accepted(8, 3)
        .moves(3)
        .flows(&[]),
    ]
}

/// Three parts: what the first two test to what the last writes.
fn nested_sequences() -> Vec<Example> {
    let (m, [a1, b2, c3]) = signals([1, 2, 3]);
    let to_the_right = seq(waits_for(a1), seq(waits_for(b2), emit(c3)));
    let to_the_left = seq(seq(waits_for(a1), waits_for(b2)), emit(c3));
    vec![
        needs(
            "(when a1 do nil); ((when b2 do nil); emit c3)",
            NEEDS,
            m.clone(),
            to_the_right,
        )
        .accepted(3, 2)
        .moves(5)
        .flows(&[(1, 3), (2, 3)]),
        needs(
            "((when a1 do nil); (when b2 do nil)); emit c3",
            NEEDS,
            m,
            to_the_left,
        )
        .accepted(3, 2)
        .moves(5)
        .flows(&[(1, 3), (2, 3)]),
    ]
}

/// What each part tests to what the other writes. In the last, the if lists x3 to
/// b9 and the when a4 to y8; the parallel lists x3 to y8 and a4 to b9.
fn parallels() -> Vec<Example> {
    let mut n = Names::new();
    let (x, b, a, y) = (n.register(3), n.signal(9), n.signal(4), n.register(8));
    let both = par(if_else(read(x), nil(), emit(b)), when(a, clear(y)));
    vec![
        needs(
            "(if x3 then nil else nil) parallel y8 := 0",
            NEEDS,
            n.clone(),
            par(looks_at(x), clear(y)),
        )
        .accepted(8, 3)
        .moves(6)
        .flows(&[(3, 8)]),
        needs(
            "y8 := 0 parallel (if x3 then nil else nil)",
            NEEDS,
            n.clone(),
            par(clear(y), looks_at(x)),
        )
        .accepted(8, 3)
        .moves(6)
        .flows(&[(3, 8)]),
        needs(
            "(if x3 then nil else emit b9) parallel (when a4 do y8 := 0)",
            NEEDS,
            n,
            both,
        )
        .accepted(8, 4)
        .moves(10)
        .flows(&[(3, 8), (3, 9), (4, 8), (4, 9)]),
    ]
}

/// What is tested within a part is tested by the part, however deep: in branches, in
/// a loop, in bodies of when, watching, let and local. b7 comes after all of them.
fn nested_tests() -> Vec<Example> {
    let mut n = Names::new();
    let (a, x, b) = (n.signal(2), n.register(3), n.signal(7));
    let (u, c) = (n.register(5), n.signal(6));
    let branches = if_else(constant(1), waits_for(a), looks_at(x));
    let looped = while_do(constant(0), looks_at(x));
    let declared = let_in(u, constant(0), local(c, watching(waits_for(a), c)));
    vec![
        needs(
            "(if 1 then (when a2 do nil) else (if x3 then nil else nil)); emit b7",
            NEEDS,
            n.clone(),
            seq(branches, emit(b)),
        )
        .accepted(7, 3)
        .moves(5)
        .flows(&[(2, 7), (3, 7)]),
        needs(
            "(while 0 do (if x3 then nil else nil)); emit b7",
            NEEDS,
            n.clone(),
            seq(looped, emit(b)),
        )
        .accepted(7, 3)
        .flows(&[(3, 7)]),
        needs(
            "(let u5 = 0 in (local c6 in (do (when a2 do nil) watching c6))); emit b7",
            NEEDS,
            n,
            seq(declared, emit(b)),
        )
        .accepted(7, 6)
        .moves(6)
        .flows(&[(2, 7), (6, 7)]),
    ]
}

/// An assigned or let expression is no test: nothing goes on to b4.
fn no_tests() -> Vec<Example> {
    let mut n = Names::new();
    let (x, y, b) = (n.register(2), n.register(3), n.signal(4));
    vec![
        needs(
            "y3 := x2; emit b4",
            NAMES,
            n.clone(),
            seq(assign(y, read(x)), emit(b)),
        )
        .accepted(3, 0)
        .moves(3)
        .flows(&[(2, 3)]),
        needs(
            "(let y3 = x2 in nil); emit b4",
            NAMES,
            n,
            seq(let_in(y, read(x), nil()), emit(b)),
        )
        .accepted(4, 0)
        .moves(3)
        .flows(&[(2, 3)]),
    ]
}
