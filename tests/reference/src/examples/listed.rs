//! The examples of 01: its peg list, the program's example, and the blunders.

use super::script::*;
use super::{finished, log_full, spent, Example, H, L, LOW_HIGH};

const LIST: &str = "01, peg list";
const CALLS: &str = "01, 'Calls'";
const BLUNDERS: &str = "01, blunders seen at the desk";

pub fn all() -> Vec<Example> {
    let groups = [
        explicit_and_implicit_flow(),
        signals_and_flow(),
        loops_and_flow(),
        suspension(),
        values(),
        limits(),
        program(),
        blunders_of_check(),
        blunders_of_moves(),
        lines(),
    ];
    groups.into_iter().flatten().collect()
}

/// Names y_L (0) and x_H (1).
fn low_and_high() -> (Names, Name, Name) {
    let mut n = Names::new();
    let (y, x) = (n.register(L), n.register(H));
    (n, y, x)
}

fn explicit_and_implicit_flow() -> Vec<Example> {
    let (n, y, x) = low_and_high();
    vec![
        Example::script("nil", LIST, Names::new(), nil())
            .accepted(1, 0)
            .moves(0)
            .flows(&[])
            .run((&[], 1), finished(0, 0), &[], &[]),
        Example::script("y_L := x_H", LIST, n.clone(), assign(y, read(x)))
            .refused(11, 0)
            .flows(&[(1, 0)]),
        Example::script(
            "if x_H then y_L := 0 else nil",
            LIST,
            n,
            if_else(read(x), assign(y, constant(0)), nil()),
        )
        .refused(11, 2)
        .flows(&[(1, 0)]),
    ]
}

fn signals_and_flow() -> Vec<Example> {
    let mut n = Names::new();
    let (a, b, c) = (n.signal(H), n.signal(L), n.signal(L));
    vec![
        Example::script(
            "(when a_H do nil); emit b_L",
            LIST,
            n.clone(),
            seq(when(a, nil()), emit(b)),
        )
        .refused(11, 3)
        .flows(&[(1, 0)]),
        // The when fails first: it tests H and writes L.
        Example::script(
            "emit c_L; (do (when a_H do emit b_L) watching c_L)",
            LIST,
            n,
            seq(emit(c), watching(when(a, emit(b)), c)),
        )
        .refused(11, 2)
        .flows(&[(1, 0)]),
    ]
}

fn loops_and_flow() -> Vec<Example> {
    let (n, y, x) = low_and_high();
    let waits = || while_do(read(x), nil());
    let clears = || assign(y, constant(0));
    vec![
        Example::script(
            "(while x_H do nil); y_L := 0",
            LIST,
            n.clone(),
            seq(waits(), clears()),
        )
        .refused(11, 3)
        .flows(&[(1, 0)]),
        // Steps counted by hand: assign, drop nil, then while for ever or once.
        Example::script(
            "y_L := 0; (while x_H do nil)",
            LIST,
            n.clone(),
            seq(clears(), waits()),
        )
        .accepted(0, 1)
        .flows(&[])
        .run((&[5, 0], 100), finished(3, 0), &[[1, 0, 0, 0]], &[0, 0])
        .run((&[5, 1], 10), spent(10, 0), &[[1, 0, 0, 0]], &[0, 1]),
        Example::script(
            "y_L := 0 parallel (if x_H then nil else nil)",
            LIST,
            n,
            par(clears(), if_else(read(x), nil(), nil())),
        )
        .refused(11, 4)
        .flows(&[(1, 0)]),
    ]
}

fn suspension() -> Vec<Example> {
    let mut n = Names::new();
    let (a, b) = (n.signal(L), n.signal(L));
    let mut m = Names::new();
    let (c, x) = (m.signal(L), m.register(L));
    vec![
        Example::script("when b do nil", LIST, n.clone(), when(b, nil()))
            .accepted(1, 0)
            .moves(1)
            .run((&[0, 0], 3), spent(3, 3), &[], &[0, 0]),
        Example::script(
            "(when b do nil) watching a",
            LIST,
            n,
            watching(when(b, nil()), a),
        )
        .accepted(1, 0)
        .moves(2)
        .run((&[1, 0], 1000), finished(1, 1), &[], &[0, 0]),
        // Names: a is 0, x is 1.
        Example::script(
            "(when a do x := 1) parallel emit a",
            LIST,
            m,
            par(when(c, assign(x, constant(1))), emit(c)),
        )
        .accepted(0, 0)
        .moves(8)
        .run(
            (&[0, 0], 1000),
            finished(5, 0),
            &[[2, 0, 0, 1], [4, 0, 1, 1]],
            &[1, 1],
        ),
    ]
}

fn values() -> Vec<Example> {
    let (max, min) = (2147483647, -2147483648);
    let one = |name, e, value: i32| {
        let mut n = Names::new();
        let x = n.register(L);
        Example::script(name, LIST, n, assign(x, e))
            .accepted(0, 0)
            .moves(1)
            .run(
                (&[0], 1),
                finished(1, 0),
                &[[1, 0, 0, value as u32]],
                &[value],
            )
    };
    vec![
        one("2147483647 + 1", add(constant(max), constant(1)), max),
        one("-2147483648 / -1", divide(constant(min), constant(-1)), max),
        // 02, request (b): 'the peg −7 / 2 in 01' follows its rule.
        one("-7 / 2", divide(constant(-7), constant(2)), -4),
        one("5 / 0", divide(constant(5), constant(0)), 0),
    ]
}

fn limits() -> Vec<Example> {
    let names = |count: usize| {
        let mut n = Names::new();
        (0..count).for_each(|_| {
            n.register(L);
        });
        n
    };
    let mut n = Names::new();
    let (x, a) = (n.register(L), n.signal(L));
    vec![
        Example::script("64 names", LIST, names(64), nil())
            .accepted(1, 0)
            .moves(0)
            .run((&[3; 64], 1), finished(0, 0), &[], &[3; 64]),
        Example::script("65 names", LIST, names(65), nil()).refused(5, 0),
        Example::script("nil, limit 0", LIST, Names::new(), nil())
            .accepted(1, 0)
            .moves(0)
            .run((&[], 0), finished(0, 0), &[], &[]),
        Example::script("x := 1, limit 0", LIST, n.clone(), assign(x, constant(1)))
            .accepted(0, 0)
            .moves(1)
            .run((&[0, 0], 0), spent(0, 0), &[], &[0, 0]),
        Example::script("when a do nil, limit 0", LIST, n, when(a, nil()))
            .accepted(1, 0)
            .moves(1)
            .run((&[0, 1], 0), spent(0, 0), &[], &[0, 1]),
    ]
}

/// 'With the book above, values 00000000 and script ... it prints'.
fn program() -> Vec<Example> {
    let script = [
        0x00, 0x00, 0xFF, 0xFF, // name 0: register, level 0, session
        0x00, 0x00, 0x00, 0x00, 0x00, 0x00, 0x00, 0x07, // expression 0: 7
        0x01, 0x00, 0x00, 0x00, 0x00, 0x00, 0x00, 0x00, // node 0: assign
        0x00, 0x04, 0x00, 0x0C, 0x00, 0x14, 0x53, 0x54, // tail
    ];
    let place = "01, the program's example";
    let example = Example::bytes("x := 7", place, &LOW_HIGH, script.to_vec());
    vec![example.accepted(0, 0).moves(1).run_with(
        (0, &[0], 1000, 1024),
        finished(1, 0),
        &[[1, 0, 0, 7]],
        &[7],
    )]
}

/// 'A while checked against D alone.'
fn blunders_of_check() -> Vec<Example> {
    let mut n = Names::new();
    let (x, y, z) = (n.register(L), n.register(L), n.register(H));
    let body = seq(assign(y, constant(0)), while_do(read(z), nil()));
    vec![
        Example::script(
            "while x_L do (y_L := 0; (while z_H do nil))",
            BLUNDERS,
            n.clone(),
            while_do(read(x), body.clone()),
        )
        .refused(11, 4),
        Example::script("y_L := 0; (while z_H do nil)", BLUNDERS, n, body).accepted(0, 1),
    ]
}

/// Local signals and trading places. Steps counted by hand.
fn blunders_of_moves() -> Vec<Example> {
    let mut n = Names::new();
    let (a, b, x) = (n.signal(L), n.signal(L), n.register(L));
    vec![
        local_entered_again(),
        // Both suspended: instant changes only.
        Example::script(
            "(when a do nil) parallel (when b do nil)",
            BLUNDERS,
            n.clone(),
            par(when(a, nil()), when(b, nil())),
        )
        .accepted(1, 0)
        .moves(6)
        .run((&[0, 0, 0], 3), spent(3, 3), &[], &[0, 0, 0]),
        // Trade, drop nil, then one instant change.
        Example::script(
            "(when a do x := 1) parallel nil",
            BLUNDERS,
            n,
            par(when(a, assign(x, constant(1))), nil()),
        )
        .accepted(0, 0)
        .moves(6)
        .run((&[0, 0, 0], 3), spent(3, 1), &[], &[0, 0, 0]),
    ]
}

/// The first time a is emitted; the second time it must be absent again. Steps
/// counted by hand: while, local, assign, drop, if, emit, drop; while, local,
/// assign, drop, if; then instant changes.
fn local_entered_again() -> Example {
    let mut n = Names::new();
    let (x, y, a) = (n.register(L), n.register(L), n.signal(L));
    let second = when(a, assign(y, constant(9)));
    let choice = if_else(equal(read(x), constant(2)), second, emit(a));
    let body = local(a, seq(assign(x, add(read(x), constant(1))), choice));
    Example::script(
        "while x < 2 do local a in (x := x + 1; if x = 2 then when a do y := 9 else emit a)",
        BLUNDERS,
        n,
        while_do(less(read(x), constant(2)), body),
    )
    .accepted(0, 0)
    .run(
        (&[0, 0, 0], 15),
        spent(15, 3),
        &[[3, 0, 0, 1], [6, 0, 2, 1], [10, 0, 0, 2]],
        &[2, 0, 0],
    )
}

/// 'A line is written for each assignment ... to a name at or below the reader's
/// level; a let writes none.' Steps counted by hand.
fn lines() -> Vec<Example> {
    let (n, y, x) = low_and_high();
    let two_writes = || seq(assign(x, constant(1)), assign(y, constant(2)));
    let mut m = Names::new();
    let (z, u) = (m.register(L), m.register(L));
    let declares = let_in(u, constant(5), assign(z, multiply(read(u), constant(-2))));
    vec![
        // 'Logging every level and filtering later: sealed writes then use up
        // the log.' One line of room is enough for reader 0, not for reader 1.
        Example::script("x_H := 1; y_L := 2", BLUNDERS, n, two_writes())
            .accepted(0, 0)
            .moves(3)
            .run_with((0, &[0, 0], 9, 4), finished(3, 0), &[[3, 0, 0, 2]], &[2, 1])
            .run_with((1, &[0, 0], 9, 4), log_full(2, 0), &[[1, 0, 1, 1]], &[0, 1])
            .run_with((1, &[0, 0], 2, 4), spent(2, 0), &[[1, 0, 1, 1]], &[0, 1])
            .run_with((0, &[0, 0], 9, 3), log_full(2, 0), &[], &[0, 1]),
        Example::script("let u = 5 in z := u * -2", CALLS, m, declares)
            .accepted(0, 0)
            .moves(2)
            .run(
                (&[0, 0], 9),
                finished(2, 0),
                &[[2, 0, 0, 4294967286]],
                &[-10, 0],
            ),
    ]
}
