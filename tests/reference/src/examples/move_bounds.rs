//! How long the instrument can be busy: small programs for single sentences of 02
//! (f), and the largest files. k and p were counted by hand, and so were the steps;
//! 'change' stands for an instant change.

use super::script::*;
use super::{finished, spent, three_signals, Example, H, L};

const FIGURE: &str = "02 (f), 'at most k × (p + 1) moves'";
const NIL: &str = "02 (f), 'nodes other than nil'";
const NONE: &str = "02 (f), \"none\" where there is a while";
const CHANGES: &str = "02 (f), 'instant changes are not moves'";
const REFUSED: &str = "01, 'a refusal's other returned numbers are 0'";
const LARGEST: &str = "02 (f), the largest files of 01";

pub fn all() -> Vec<Example> {
    let mut all = vec![
        only_nil(),
        nil_before_nil(),
        three_assignments(),
        both_branches(),
        declarations(),
        watched_wait(),
        long_wait(),
        waits_beside_nil(),
        two_waits_in_a_row(),
        two_pairs_in_sequence(),
        two_pairs_inside_one(),
        nested_to_the_right(),
        watched_pair(),
        refused_with_a_figure(),
    ];
    all.extend(whiles());
    all.extend(largest());
    all
}

/// k = 0, p = 0: the figure is 0, and that is not none.
fn only_nil() -> Example {
    Example::script("nil makes no move", NIL, Names::new(), nil())
        .accepted(1, 0)
        .moves(0)
        .run((&[], 9), finished(0, 0), &[], &[])
}

/// k = 1: the sequence. Its one move drops the first nil.
fn nil_before_nil() -> Example {
    Example::script("nil; nil", NIL, Names::new(), seq(nil(), nil()))
        .accepted(1, 0)
        .moves(1)
        .run((&[], 9), finished(1, 0), &[], &[])
}

/// k = 5: three assignments, two sequences. Assign, drop, assign, drop, assign: where
/// nothing branches, nothing is cut off and there is no parallel, the figure is met.
fn three_assignments() -> Example {
    let mut n = Names::new();
    let x = n.register(L);
    let to = |value| assign(x, constant(value));
    let process = seq(to(1), seq(to(2), to(3)));
    let lines = [[1, 0, 0, 1], [3, 0, 0, 2], [5, 0, 0, 3]];
    Example::script("x := 1; (x := 2; x := 3)", FIGURE, n, process)
        .accepted(0, 0)
        .moves(5)
        .run((&[0], 99), finished(5, 0), &lines, &[3])
        .run((&[0], 4), spent(4, 0), &lines[..2], &[2])
}

/// k = 5: if, sequence, three assignments; a run takes one branch.
fn both_branches() -> Example {
    let mut n = Names::new();
    let (x, y) = (n.register(L), n.register(L));
    let to = |value| assign(y, constant(value));
    let process = if_else(read(x), seq(to(1), to(2)), to(3));
    let first = [[2, 0, 1, 1], [4, 0, 1, 2]];
    Example::script("if x then (y := 1; y := 2) else y := 3", FIGURE, n, process)
        .accepted(0, 0)
        .moves(5)
        .run((&[1, 0], 99), finished(4, 0), &first, &[1, 2])
        .run((&[0, 0], 99), finished(2, 0), &[[2, 0, 1, 3]], &[0, 3])
}

/// k = 5: let, local, sequence, emit, when; each makes its move.
fn declarations() -> Example {
    let mut n = Names::new();
    let (u, a) = (n.register(L), n.signal(L));
    let inner = seq(emit(a), when(a, nil()));
    let process = let_in(u, constant(7), local(a, inner));
    let name = "let u = 7 in local a in (emit a; (when a do nil))";
    Example::script(name, FIGURE, n, process)
        .accepted(0, 0)
        .moves(5)
        .run((&[0, 0], 99), finished(5, 0), &[[3, 0, 1, 1]], &[0, 0])
}

/// Names a (0), b (1), x (2). k = 3: watching, when, assign. With b present the
/// change leaves nil, and no move is made. With a in instant 2: change, change,
/// assign, the when goes, the watching goes.
fn watched_wait() -> Example {
    let mut n = Names::new();
    let (a, b, x) = (n.signal(L), n.signal(L), n.register(L));
    let process = watching(when(a, assign(x, constant(1))), b);
    Example::script("do (when a do x := 1) watching b", CHANGES, n, process)
        .accepted(0, 0)
        .moves(3)
        .run((&[0, 1, 0], 99), finished(1, 1), &[], &[0, 0, 0])
        .run(
            (&[0, 0, 0], 99),
            finished(5, 2),
            &[[3, 2, 2, 1]],
            &[1, 0, 1],
        )
        .list(&[2, 0])
}

/// k = 1, and a thousand steps, none of them a move.
fn long_wait() -> Example {
    let mut n = Names::new();
    let a = n.signal(L);
    Example::script("when a do nil, for long", CHANGES, n, when(a, nil()))
        .accepted(1, 0)
        .moves(1)
        .run((&[0], 1000), spent(1000, 1000), &[], &[0])
        .run((&[0], 1000), finished(501, 500), &[], &[1])
        .list(&[500, 0])
}

/// k = 2: parallel, when; p = 1. Trade, drop, change, the when goes: one move less
/// than the figure.
fn waits_beside_nil() -> Example {
    let mut n = Names::new();
    let a = n.signal(L);
    let process = par(when(a, nil()), nil());
    Example::script("(when a do nil) parallel nil", FIGURE, n, process)
        .accepted(1, 0)
        .moves(4)
        .run((&[0], 99), finished(4, 1), &[], &[1])
        .list(&[1, 0])
        .run((&[1], 99), finished(2, 0), &[], &[1])
}

/// k = 7: parallel, two sequences, four whens; p = 1. In each instant one part goes
/// on while the other waits: trade, when, drop; change; trade, when, drop; change;
/// trade, when, drop of the left part; change; when. Ten moves, more than k.
fn two_waits_in_a_row() -> Example {
    let (n, a, b, c) = three_signals();
    let waits = |first, second| seq(when(first, nil()), when(second, nil()));
    let process = par(waits(b, a), waits(a, c));
    let name = "((when b do nil); (when a do nil)) parallel ((when a do nil); (when c do nil))";
    Example::script(name, FIGURE, n, process)
        .accepted(1, 0)
        .moves(14)
        .run((&[1, 0, 0], 99), finished(13, 3), &[], &[1, 0, 0])
        .list(&[1, 1, 2, 2, 3, 0])
        // All present at once: when, drop, when, drop of the left part; when, drop, when.
        .run((&[1, 1, 1], 99), finished(7, 0), &[], &[1, 1, 1])
}

/// k = 3, p = 2, of which none is inside the other. Each parallel drops its left part;
/// between them the sequence drops the first.
fn two_pairs_in_sequence() -> Example {
    let pair = || par(nil(), nil());
    let name = "(nil parallel nil); (nil parallel nil)";
    Example::script(name, FIGURE, Names::new(), seq(pair(), pair()))
        .accepted(1, 0)
        .moves(9)
        .run((&[], 99), finished(3, 0), &[], &[])
}

/// k = 3, p = 3: the left pair drops its left part, the outer parallel the left pair,
/// the right pair its left part.
fn two_pairs_inside_one() -> Example {
    let pair = || par(nil(), nil());
    let name = "(nil parallel nil) parallel (nil parallel nil)";
    Example::script(name, FIGURE, Names::new(), par(pair(), pair()))
        .accepted(1, 0)
        .moves(12)
        .run((&[], 99), finished(3, 0), &[], &[])
}

/// k = 7: three whens, one emission, three parallels; p = 3. Three trades bring the
/// emission to the front, and what it leaves is dropped; then one after the other the
/// whens go and their parallels drop them: trade, trade, trade, emit, drop; then, c
/// being present, the when of the innermost parallel goes, drop, and so on outwards.
fn nested_to_the_right() -> Example {
    let (n, _, _, c) = three_signals();
    let waits = || when(c, nil());
    let process = par(waits(), par(waits(), par(waits(), emit(c))));
    let name = "W parallel (W parallel (W parallel emit c)), W being when c do nil";
    Example::script(name, FIGURE, n, process)
        .accepted(0, 0)
        .moves(28)
        .run(
            (&[0, 0, 0], 99),
            finished(10, 0),
            &[[4, 0, 2, 1]],
            &[0, 0, 1],
        )
}

/// Names a (0), b (1), c (2). k = 4: watching, parallel, two whens; p = 1. From c and b
/// present: trade, when, drop; the change leaves nil. With b in instant 1: change,
/// trade, when, drop; then only changes.
fn watched_pair() -> Example {
    let (n, a, b, c) = three_signals();
    let process = watching(par(when(a, nil()), when(b, nil())), c);
    let name = "do ((when a do nil) parallel (when b do nil)) watching c";
    Example::script(name, CHANGES, n, process)
        .accepted(1, 0)
        .moves(8)
        .run((&[0, 1, 1], 99), finished(4, 1), &[], &[0, 0, 0])
        .run((&[0, 0, 0], 9), spent(9, 6), &[], &[0, 0, 0])
        .list(&[1, 1])
}

/// k = 2, p = 1: refused, and so neither bounded nor with a figure.
fn refused_with_a_figure() -> Example {
    let mut n = Names::new();
    let (x, y) = (n.register(H), n.register(L));
    let process = par(assign(y, read(x)), nil());
    let name = "y_L := x_H parallel nil, refused without a figure";
    Example::script(name, REFUSED, n, process).refused(11, 0)
}

/// A while anywhere, also one that never runs.
fn whiles() -> Vec<Example> {
    let never = || while_do(constant(0), nil());
    let example = |name, process| {
        let (n, ..) = three_signals();
        Example::script(name, NONE, n, process).accepted(1, 0)
    };
    let at = |moves: u32| finished(moves, 0);
    vec![
        example("while 0 do nil", never()).run((&[0; 3], 99), at(1), &[], &[0; 3]),
        example("nil; (while 0 do nil)", seq(nil(), never())).run(
            (&[0; 3], 99),
            at(2),
            &[],
            &[0; 3],
        ),
        example("(while 0 do nil); nil", seq(never(), nil())).run(
            (&[0; 3], 99),
            at(2),
            &[],
            &[0; 3],
        ),
        example(
            "(while 0 do nil) parallel (when a do nil)",
            par(never(), when(0, nil())),
        )
        .run((&[1, 0, 0], 99), at(3), &[], &[1, 0, 0]),
        example(
            "if 1 then nil else (while 0 do nil)",
            if_else(constant(1), nil(), never()),
        )
        .run((&[0; 3], 99), at(1), &[], &[0; 3]),
        example(
            "when a do do (nil parallel (while 0 do nil)) watching b",
            when(0, watching(par(nil(), never()), 1)),
        )
        .run((&[1, 0, 0], 99), at(4), &[], &[1, 0, 0]),
    ]
}

/// The largest files have 256 nodes. Of p parallel nodes the parts end in at least
/// p + 1 leaves, so that p is at most 127 and the figure at most 256 × 128 = 32,768.
fn largest() -> Vec<Example> {
    vec![
        all_watchings(),
        all_parallels(
            emit(0),
            "127 parallels of emissions under a let",
            (256, 32_768),
        ),
        all_parallels(nil(), "127 parallels of nil under a let", (128, 16_384)),
    ]
}

/// k = 255, p = 0: all nodes but the nil inside.
fn all_watchings() -> Example {
    let mut n = Names::new();
    let a = n.signal(L);
    let process = (0..255).fold(nil(), |p, _| watching(p, a));
    Example::script("255 watchings around nil", LARGEST, n, process)
        .accepted(1, 0)
        .moves(255)
        .run((&[0], 999), finished(255, 0), &[], &[0])
}

/// 128 equal parts, the parallels nested to the left, and a let around them: each node
/// other than nil makes one move, and none trades. Of emissions, the first is a line.
fn all_parallels(part: Process, name: &'static str, (k, figure): (u32, u32)) -> Example {
    let mut n = Names::new();
    let (_, u) = (n.signal(L), n.register(L));
    let (write, present, lines) = match part {
        Process::Nil => (1, 0, vec![]),
        _ => (0, 1, vec![[2, 0, 0, 1]]),
    };
    let parts = (0..127).fold(part.clone(), |p, _| par(p, part.clone()));
    Example::script(name, LARGEST, n, let_in(u, constant(0), parts))
        .accepted(write, 0)
        .moves(figure)
        .run((&[0, 0], 999), finished(k, 0), &lines, &[present, 0])
}
