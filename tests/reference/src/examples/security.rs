//! The report's example programs of sections 3.2 to 3.4. Steps were counted by
//! hand by the rules of Figures 1 to 4.

use super::script::*;
use super::{finished, Example, H, L};

const TERMS: &str = "the report, section 3.2";
const SECURITY: &str = "the report, section 3.3";
const WEAK: &str = "the report, section 3.4";

pub fn all() -> Vec<Example> {
    let groups = [
        vec![guard()],
        semantically_high(),
        vec![assigns_local(), chooses_assignment(H).refused(11, 7)],
        vec![chooses_assignment_low()],
        changes_local(),
        high_choices(),
        vec![local_under_high_test()],
    ];
    groups.into_iter().flatten().collect()
}

/// 'x is a guard in the program (while x <= y do y := y - 1)', so its level is
/// in T; x and y are H. While, y, drop, while, y, drop, while.
fn guard() -> Example {
    let mut n = Names::new();
    let (x, y) = (n.register(H), n.register(H));
    let at_most = not(less(read(y), read(x)));
    let process = while_do(at_most, assign(y, subtract(read(y), constant(1))));
    Example::script("while x <= y do y := y - 1", TERMS, n, process)
        .accepted(1, 1)
        .run_with(
            (1, &[1, 2], 100, 64),
            finished(7, 0),
            &[[2, 0, 1, 1], [5, 0, 1, 0]],
            &[1, 0],
        )
}

/// 'A semantically high program that is not syntactically high'; and for a low a,
/// 'the program P = local a in nil is semantically high while Q = local a in emit
/// a is not'.
fn semantically_high() -> Vec<Example> {
    let mut n = Names::new();
    let y = n.register(L);
    let mut m = Names::new();
    let a = m.signal(L);
    let choice = if_else(constant(1), nil(), assign(y, constant(0)));
    vec![
        Example::script("if true then nil else y_L := 0", SECURITY, n, choice)
            .accepted(0, 0)
            .moves(2)
            .run((&[6], 100), finished(1, 0), &[], &[6]),
        Example::script("local a : L in nil", SECURITY, m.clone(), local(a, nil()))
            .accepted(1, 0)
            .moves(1)
            .run((&[0], 100), finished(1, 0), &[], &[0]),
        Example::script("local a : L in emit a", SECURITY, m, local(a, emit(a)))
            .accepted(0, 0)
            .moves(2)
            .run((&[0], 100), finished(2, 0), &[[2, 0, 0, 1]], &[0]),
    ]
}

/// The report's P: let x : L = 0 in y_L := x.
fn p(x: Name, y: Name) -> Process {
    let_in(x, constant(0), assign(y, read(x)))
}

fn assigns_local() -> Example {
    let mut n = Names::new();
    let (y, x) = (n.register(L), n.register(L));
    Example::script("let x : L = 0 in y_L := x", SECURITY, n, p(x, y))
        .accepted(0, 0)
        .moves(2)
        .run((&[8, 0], 100), finished(2, 0), &[[2, 0, 0, 0]], &[0, 0])
}

/// Q = if z = 0 then (nil; P) else (let x : L = 1 in P), with z (0), y (1) and the
/// three declared names (2 to 4). With a high z 'Q is not typable'.
fn chooses_assignment(level: u8) -> Example {
    let mut n = Names::new();
    let (z, y) = (n.register(level), n.register(L));
    let (x1, x2, x3) = (n.register(L), n.register(L), n.register(L));
    let first = seq(nil(), p(x1, y));
    let second = let_in(x2, constant(1), p(x3, y));
    Example::script(
        "if z = 0 then (nil; P) else (let x : L = 1 in P)",
        SECURITY,
        n,
        if_else(is_zero(z), first, second),
    )
}

/// 'The two branches have the same effect on the low memory.' If, drop, let, y;
/// or if, let, let, y.
fn chooses_assignment_low() -> Example {
    let line = [4, 0, 1, 0];
    chooses_assignment(L)
        .accepted(0, 0)
        .moves(7)
        .run(
            (&[0, 8, 0, 0, 0], 100),
            finished(4, 0),
            &[line],
            &[0, 0, 0, 0, 0],
        )
        .run(
            (&[1, 8, 0, 0, 0], 100),
            finished(4, 0),
            &[line],
            &[1, 0, 0, 0, 0],
        )
}

/// P1 and P2 'act differently on the local store': let x : L = 0 (or 1) in
/// x := x + 1. The choice between them by a high test is not secure.
fn changes_local() -> Vec<Example> {
    let changes = |x, value| {
        let body = assign(x, add(read(x), constant(1)));
        let_in(x, constant(value), body)
    };
    let mut n = Names::new();
    let x = n.register(L);
    let mut m = Names::new();
    let (z, x1, x2) = (m.register(H), m.register(L), m.register(L));
    let choice = if_else(is_zero(z), changes(x1, 0), changes(x2, 1));
    let one = |name, value| Example::script(name, SECURITY, n.clone(), changes(x, value));
    vec![
        one("let x : L = 0 in x := x + 1", 0)
            .accepted(0, 0)
            .moves(2)
            .run((&[0], 100), finished(2, 0), &[[2, 0, 0, 1]], &[0]),
        one("let x : L = 1 in x := x + 1", 1)
            .accepted(0, 0)
            .moves(2)
            .run((&[0], 100), finished(2, 0), &[[2, 0, 0, 2]], &[0]),
        Example::script("if z_H = 0 then P1 else P2", SECURITY, m, choice).refused(11, 4),
    ]
}

/// Not secure, so not typable (Theorem 3.10). Names x_H (0), a_L (1), b_L (2),
/// z_L (3), and u and v to declare (4 and 5).
fn high_choices() -> Vec<Example> {
    let mut n = Names::new();
    let (x, a, b, z) = (n.register(H), n.signal(L), n.signal(L), n.register(L));
    let (u, v) = (n.register(L), n.register(L));
    let choice = |name, p, q| Example::script(name, WEAK, n.clone(), if_else(is_zero(x), p, q));
    vec![
        choice("if x_H = 0 then emit a_L else emit b_L", emit(a), emit(b)).refused(11, 2),
        choice(
            "if x_H = 0 then (let u : L = 0 in u := 0) else (let v : L = 1 in v := 1)",
            let_in(u, constant(0), assign(u, constant(0))),
            let_in(v, constant(1), assign(v, constant(1))),
        )
        .refused(11, 4),
        choice(
            "if x_H = 0 then (let u : L = 0 in z_L := u) else (let v : L = 1 in z_L := v)",
            let_in(u, constant(0), assign(z, read(u))),
            let_in(v, constant(1), assign(z, read(v))),
        )
        .refused(11, 4),
    ]
}

/// 'R is not secure while it is weakly secure.'
fn local_under_high_test() -> Example {
    let mut n = Names::new();
    let (x, y) = (n.register(H), n.register(L));
    let body = if_else(is_zero(x), assign(y, constant(0)), nil());
    Example::script(
        "let y : L = 0 in (if x_H = 0 then y := 0 else nil)",
        WEAK,
        n,
        let_in(y, constant(0), body),
    )
    .refused(11, 2)
}
